// Rows of parts over quic-go's frame parser and frame sorter. `build` puts this file into a scratch copy of the installed package, so that
// it reaches what has no public name. Nothing of the peer's source stands here.

package quic

import (
	"bytes"
	"fmt"
	"os"
	"syscall"
	"time"

	"github.com/lucas-clemente/quic-go/internal/protocol"
	"github.com/lucas-clemente/quic-go/internal/wire"
	"github.com/lucas-clemente/quic-go/quicvarint"
)

const (
	driverChunk  = 1200
	driverPeriod = 251
)

// The time of a run, and its number of units.
type driverRun struct {
	time  time.Duration
	units int
}

type driverRow struct {
	name string
	run  func() driverRun
}

// The first run warms up and compares each byte that is read.
var driverIsChecked = true

// The bytes: the one at an offset is the offset modulo 251.
var driverSource = func() []byte {
	source := make([]byte, driverChunk+driverPeriod)
	for i := range source {
		source[i] = byte(i % driverPeriod)
	}
	return source
}()

func driverAt(offset, size int) []byte {
	from := offset % driverPeriod
	return driverSource[from : from+size]
}

func driverCheck(offset int, read []byte) {
	if !driverIsChecked {
		return
	}
	for i, b := range read {
		driverWant(b == byte((offset+i)%driverPeriod), "the bytes differ")
	}
}

func driverWant(isSo bool, reason string) {
	if !isSo {
		fmt.Fprintln(os.Stderr, "driver:", reason)
		os.Exit(1)
	}
}

// Processor time of the process, not of the thread: collecting garbage is a part of the row's cost.
func driverNow() time.Duration {
	var usage syscall.Rusage
	driverWant(syscall.Getrusage(syscall.RUSAGE_SELF, &usage) == nil, "the clock can't be read")
	return time.Duration(usage.Utime.Nano() + usage.Stime.Nano())
}

// Frames

func driverNumbers(payload *bytes.Buffer, values ...uint64) {
	for _, value := range values {
		quicvarint.Write(payload, value)
	}
}

// The common frames: an ACK of 1 to 3, 7 to 8, 20 to 22 and 30, seven of control, four of STREAM.
func driverMixed() (*bytes.Buffer, int) {
	payload, frames := &bytes.Buffer{}, 0
	for payload.Len() < 1100 {
		driverNumbers(payload, 2, 30, 0, 3, 0, 6, 2, 10, 1, 2, 2)
		driverNumbers(payload, 0x10, 1<<24, 0x11, 4, 70000, 4, 8, 7, 5000, 5, 12, 7, 0x12, 128, 0x15, 4, 70000, 1)
		for k := uint64(0); k < 4; k++ {
			driverStream(payload, 4*k, 4096*k, 32, k == 3, true)
		}
		frames += 12
	}
	return payload, frames
}

func driverStream(payload *bytes.Buffer, stream, offset uint64, size int, fin, hasLen bool) {
	kind := byte(0x08)
	for bit, isSet := range map[byte]bool{1: fin, 2: hasLen, 4: offset > 0} {
		if isSet {
			kind |= bit
		}
	}
	payload.WriteByte(kind)
	driverNumbers(payload, stream)
	if offset > 0 {
		driverNumbers(payload, offset)
	}
	if hasLen {
		driverNumbers(payload, uint64(size))
	}
	payload.Write(driverAt(int(offset), size))
}

func driverStreams(each int) (*bytes.Buffer, int) {
	payload, frames := &bytes.Buffer{}, 0
	for payload.Len()+each+13 <= driverChunk {
		driverStream(payload, 4, 1<<20+uint64(frames*each), each, false, each < 1000)
		frames++
	}
	return payload, frames
}

// Reads the frames and returns how many. A STREAM frame holds a copy of its bytes, in a buffer that goes back to a pool.
func driverRead(payload []byte, parser wire.FrameParser) int {
	frames, rest := 0, bytes.NewReader(payload)
	for rest.Len() > 0 {
		frame, err := parser.ParseNext(rest, protocol.Encryption1RTT)
		driverWant(err == nil && frame != nil, "a frame can't be read")
		if stream, is := frame.(*wire.StreamFrame); is {
			driverCheck(int(stream.Offset), stream.Data)
			stream.PutBack()
		}
		frames++
	}
	return frames
}

func driverDecode(make func() (*bytes.Buffer, int)) driverRun {
	payload, frames := make()
	parser := wire.NewFrameParser(false, protocol.Version1)
	driverWant(driverRead(payload.Bytes(), parser) == frames, "other frames were read than were put")
	times := 1000000 / frames
	before := driverNow()
	for i := 0; i < times; i++ {
		driverRead(payload.Bytes(), parser)
	}
	return driverRun{driverNow() - before, times * frames}
}

// The frame sorter alone, without the stream's checks

func driverPut(sorter *frameSorter, offset, size int) {
	err := sorter.Push(driverAt(offset, size), protocol.ByteCount(offset), nil)
	driverWant(err == nil, "bytes can't be put")
}

// Reads this many bytes and checks that they are those at this offset.
func driverReadAll(sorter *frameSorter, out []byte, from, size int) {
	read := 0
	for {
		_, piece, _ := sorter.Pop()
		if piece == nil {
			break
		}
		read += copy(out[read:], piece)
	}
	driverWant(read == size, "other bytes come out than went in")
	driverCheck(from, out[:read])
}

// Pieces of a window of this many bytes, put in forwards or backwards.
func driverHalf(rounds, window, each int, forwards bool) driverRun {
	sorter, out := newFrameSorter(), make([]byte, window)
	before := driverNow()
	for round := 0; round < rounds; round++ {
		from := round * window
		for k := 0; k < window; k += each {
			offset := from + k
			if !forwards {
				offset = from + window - each - k
			}
			driverPut(sorter, offset, each)
		}
		driverReadAll(sorter, out, from, window)
	}
	return driverRun{driverNow() - before, rounds * window / each}
}

func driverRows() []driverRow {
	return []driverRow{
		{"decode-mixed", func() driverRun { return driverDecode(driverMixed) }},
		{"decode-stream-1200", func() driverRun {
			return driverDecode(func() (*bytes.Buffer, int) { return driverStreams(1187) })
		}},
		{"decode-stream-32", func() driverRun {
			return driverDecode(func() (*bytes.Buffer, int) { return driverStreams(32) })
		}},
		{"half-in-order", func() driverRun { return driverHalf(1000000, driverChunk, driverChunk, true) }},
		{"half-in-reverse", func() driverRun { return driverHalf(20000, 54*driverChunk, driverChunk, false) }},
		{"half-bytes-in-order", func() driverRun { return driverHalf(10, 1<<16, 1, true) }},
	}
}

// DriverMain prints the nanoseconds of a unit of the row, or lists the rows.
func DriverMain() {
	for _, row := range driverRows() {
		if len(os.Args) < 2 {
			fmt.Println(row.name)
		} else if row.name == os.Args[1] {
			row.run()
			driverIsChecked = false
			run := row.run()
			fmt.Printf("%.2f\n", float64(run.time.Nanoseconds())/float64(run.units))
			return
		}
	}
	if len(os.Args) > 1 {
		fmt.Fprintln(os.Stderr, "driver: there is no row", os.Args[1])
		os.Exit(2)
	}
}
