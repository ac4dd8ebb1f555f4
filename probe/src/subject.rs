//! The program that is probed: begun on a free port, begun anew where it ends, and ended with all that it began.

use crate::link::{Link, Way};
use std::net::{Ipv4Addr, SocketAddr, UdpSocket};
use std::os::unix::process::CommandExt;
use std::process::{Child, Command, Stdio};
use std::sync::Mutex;
use std::thread;
use std::time::{Duration, Instant};

struct Program(Child);

impl Program {
    fn begin(command: &str, port: u16) -> Result<Program, String> {
        let command = command.replace("{port}", &port.to_string());
        let begun = Command::new("sh")
            .args(["-c", &command])
            .stdin(Stdio::null())
            .stdout(Stdio::null())
            .stderr(Stdio::null())
            .process_group(0)
            .spawn();
        begun
            .map(Program)
            .map_err(|error| format!("'{command}' doesn't begin: {error}"))
    }

    fn has_ended(&mut self) -> bool {
        matches!(self.0.try_wait(), Ok(Some(_)) | Err(_))
    }
}

impl Drop for Program {
    // The shell and what it began are a group.
    fn drop(&mut self) {
        let group = format!("-{}", self.0.id());
        let end = Command::new("kill")
            .args(["-9", "--", &group])
            .stderr(Stdio::null())
            .status();
        if end.is_err() {
            _ = self.0.kill();
        }
        _ = self.0.wait();
    }
}

fn free_port() -> Result<(UdpSocket, u16), String> {
    let socket = UdpSocket::bind((Ipv4Addr::LOCALHOST, 0)).map_err(|error| error.to_string())?;
    let port = socket
        .local_addr()
        .map_err(|error| error.to_string())?
        .port();
    Ok((socket, port))
}

/// A server, on the loopback.
pub struct Server {
    command: String,
    way: Way,
    begun: Mutex<Begun>,
}

struct Begun {
    program: Program,
    address: SocketAddr,
    /// How often it was begun.
    times: usize,
}

impl Server {
    /// # Errors
    ///
    /// Says why it can't be reached.
    pub fn begin(command: &str, way: &Way) -> Result<Server, String> {
        Ok(Server {
            command: command.to_owned(),
            way: way.clone(),
            begun: Mutex::new(Begun::new(command, way, 1)?),
        })
    }

    /// Where it listens, and how often it was begun.
    pub fn address(&self) -> (SocketAddr, usize) {
        let begun = self.begun.lock().expect("no thread panics with it");
        (begun.address, begun.times)
    }

    /// Whether it ended since it was begun for this time. Then it is begun anew.
    pub fn has_ended(&self, times: usize) -> bool {
        let has_ended = {
            let mut begun = self.begun.lock().expect("no thread panics with it");
            begun.times != times || begun.program.has_ended()
        };
        if has_ended {
            self.begin_anew(times);
        }
        has_ended
    }

    /// Ends the one that was begun for this time, if it goes on, and begins another. Where that isn't reached each handshake fails.
    pub fn begin_anew(&self, times: usize) {
        let mut begun = self.begun.lock().expect("no thread panics with it");
        if begun.times != times {
            return;
        }
        if let Ok(new) = Begun::new(&self.command, &self.way, times + 1) {
            *begun = new;
        }
    }
}

impl Begun {
    fn new(command: &str, way: &Way, times: usize) -> Result<Begun, String> {
        let (socket, port) = free_port()?;
        drop(socket);
        let mut program = Program::begin(command, port)?;
        let address = SocketAddr::from((Ipv4Addr::LOCALHOST, port));
        let begin = Instant::now();
        loop {
            let reason = match Link::to(address, way, false) {
                Ok(_) => break,
                Err(reason) => reason,
            };
            if program.has_ended() {
                return Err(format!("'{command}' ends as it begins"));
            }
            if begin.elapsed() > way.timeout {
                return Err(format!("'{command}' isn't reached: {reason}"));
            }
            thread::sleep(Duration::from_millis(50));
        }
        Ok(Begun {
            program,
            address,
            times,
        })
    }
}

/// A client that is begun for one case.
pub struct Client {
    program: Program,
}

impl Client {
    /// # Errors
    ///
    /// Says why there is no connection.
    pub fn begin(command: &str, way: &Way, is_tight: bool) -> Result<(Client, Link), String> {
        let (socket, port) = free_port()?;
        let client = Client {
            program: Program::begin(command, port)?,
        };
        let link = Link::from(socket, way, is_tight)?;
        Ok((client, link))
    }

    pub fn has_ended(&mut self) -> bool {
        self.program.has_ended()
    }
}
