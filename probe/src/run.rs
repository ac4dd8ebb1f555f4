//! Plays all cases, several at once.

use crate::cases::Case;
use crate::link::{Link, Way};
use crate::options::{Options, Target};
use crate::outcome::{Class, Outcome};
use crate::play::{Played, Player};
use crate::random::Script;
use crate::subject::{Client, Server};
use std::net::SocketAddr;
use std::sync::Mutex;
use std::sync::atomic::{AtomicUsize, Ordering};
use std::thread;
use std::time::Instant;

/// So often a script that differs is played to make it smaller.
const MOST_PLAYS: usize = 200;

#[derive(Clone, Debug)]
pub struct Judged {
    pub name: String,
    pub outcome: Outcome,
    pub payloads: Vec<Played>,
    pub seconds: f64,
    pub by_order: bool,
}

enum Subject {
    Server(Server),
    Client(String),
    Address(SocketAddr),
}

/// What came of one play, and whether the program ended meanwhile.
struct Play {
    outcome: Outcome,
    payloads: Vec<Played>,
    has_ended: bool,
}

impl Play {
    fn is_doubtful(&self) -> bool {
        self.has_ended || matches!(self.outcome.class, Class::Silent | Class::NotRun)
    }
}

pub struct Run<'a> {
    subject: Subject,
    way: Way,
    jobs: usize,
    cases: &'a [Case],
    tell: &'a (dyn Fn(&Judged) + Sync),
}

impl<'a> Run<'a> {
    /// # Errors
    ///
    /// Says why the program can't be reached.
    pub fn new(
        options: &Options,
        cases: &'a [Case],
        tell: &'a (dyn Fn(&Judged) + Sync),
    ) -> Result<Run<'a>, String> {
        let way = Way {
            alpn: options.alpn.clone(),
            sni: options.sni.clone(),
            timeout: options.timeout,
        };
        let subject = match &options.target {
            Target::Server(command) => Subject::Server(Server::begin(command, &way)?),
            Target::Client(command) => Subject::Client(command.clone()),
            Target::Address(address) => Subject::Address(*address),
        };
        Ok(Run {
            subject,
            way,
            jobs: options.jobs,
            cases,
            tell,
        })
    }

    /// Plays all, in any order. Where the program ends or falls silent, what was open then is played again, alone.
    pub fn all(&self) -> Vec<Judged> {
        let next = AtomicUsize::new(0);
        let judged = Mutex::new(Vec::new());
        let open = Mutex::new(Vec::new());
        thread::scope(|scope| {
            for _ in 0..self.jobs {
                scope.spawn(|| {
                    while let Some(case) = self.cases.get(next.fetch_add(1, Ordering::Relaxed)) {
                        let begin = Instant::now();
                        let play = self.play(case);
                        if play.is_doubtful() {
                            open.lock().expect("no thread panics").push(case);
                        } else {
                            let one = self.judged(case, play, begin);
                            judged.lock().expect("no thread panics").push(one);
                        }
                    }
                });
            }
        });
        let mut judged = judged.into_inner().expect("no thread panicked");
        for case in open.into_inner().expect("no thread panicked") {
            let begin = Instant::now();
            let mut play = self.play(case);
            if play.outcome.class == Class::NotRun {
                play = self.play(case);
            }
            judged.push(self.judged(case, play, begin));
        }
        let place = |one: &Judged| self.cases.iter().position(|case| case.name == one.name);
        judged.sort_by_key(place);
        judged
    }

    /// Of the scripts that differ, the payloads that are enough for that.
    pub fn shrink(&self, judged: &mut [Judged], scripts: &[Script]) {
        for script in scripts {
            let name = script.case().name;
            let found = judged.iter_mut().find(|one| one.name == name);
            let Some(one) = found.filter(|one| one.outcome.class.is_difference()) else {
                continue;
            };
            let mut left = MOST_PLAYS;
            script.clone().shrunk(|less| {
                if left == 0 {
                    return false;
                }
                left -= 1;
                let play = self.play(&less.case());
                let is_same = play.outcome == one.outcome;
                if is_same {
                    one.payloads = play.payloads;
                }
                is_same
            });
        }
    }

    fn judged(&self, case: &Case, play: Play, begin: Instant) -> Judged {
        let outcome = match play.has_ended {
            true => Outcome::new(Class::Ended, "its process ends"),
            false => play.outcome,
        };
        let judged = Judged {
            name: case.name.clone(),
            outcome,
            payloads: play.payloads,
            seconds: begin.elapsed().as_secs_f64(),
            by_order: case.by_order,
        };
        (self.tell)(&judged);
        judged
    }

    fn play(&self, case: &Case) -> Play {
        match &self.subject {
            Subject::Address(address) => {
                self.over(Link::to(*address, &self.way, case.is_tight), case)
            }
            Subject::Server(server) => {
                let (address, times) = server.address();
                let link = Link::to(address, &self.way, case.is_tight);
                let mut play = self.over(link, case);
                if play.outcome.class == Class::Silent {
                    // Some end only as the next one comes.
                    _ = Link::to(address, &self.way, false);
                }
                play.has_ended = server.has_ended(times);
                // One that is silent, or can't be reached, may be busy for ever: that isn't the next case's doing.
                if matches!(play.outcome.class, Class::NotRun | Class::Silent) {
                    server.begin_anew(times);
                    play.has_ended &= play.outcome.class == Class::Silent;
                }
                play
            }
            Subject::Client(command) => match Client::begin(command, &self.way, case.is_tight) {
                // A client may end as its connection does.
                Ok((mut client, link)) => {
                    let mut play = self.over(Ok(link), case);
                    play.has_ended = play.outcome.class == Class::Silent && client.has_ended();
                    play
                }
                Err(reason) => self.over(Err(reason), case),
            },
        }
    }

    fn over(&self, link: Result<Link, String>, case: &Case) -> Play {
        let (outcome, payloads) = match link {
            Ok(link) => {
                let mut player = Player::new(link, self.way.alpn == "h3");
                (player.play(case), std::mem::take(&mut player.played))
            }
            Err(reason) => (Outcome::new(Class::NotRun, reason), Vec::new()),
        };
        Play {
            outcome,
            payloads,
            has_ended: false,
        }
    }
}
