// Serves and loads files over QUIC by quic-go: the bytes of a stream are a path, the answer is the file.
//
//	quic-go-peer server DIR ADDR CERTIFICATE.pem KEY.pem
//	quic-go-peer client ADDR DIR PATH..
//	quic-go-peer hq-client ADDR DIR PATH..
//
// The last asks by HTTP/0.9 (ALPN hq-interop), which the server knows, too. And over HTTP/3, by its package http3:
//
//	quic-go-peer h3-server DIR ADDR CERTIFICATE.pem KEY.pem
//	quic-go-peer h3-client ADDR DIR N PATH
//	quic-go-peer h3-times ADDR DIR N PATH
//	quic-go-peer h3-resets ADDR DIR N PATH..
//
// h3-client loads a file N times, each time on a connection of its own; h3-times on one connection, one after the other, and tells how
// long the median took. h3-resets loads files on one connection, and breaks off N other requests beside each in the middle: one half of them by
// RESET_STREAM alone, the other with STOP_SENDING.
package main

import (
	"context"
	"crypto/tls"
	"errors"
	"fmt"
	"io"
	"net"
	"net/http"
	"os"
	"path/filepath"
	"sort"
	"strconv"
	"strings"
	"time"

	"github.com/lucas-clemente/quic-go"
	"github.com/lucas-clemente/quic-go/http3"
)

const (
	protocol = "gotsavena-raw"
	hq       = "hq-interop"
	noFile   = 2
	mostPath = 4096
	// H3_REQUEST_CANCELLED (RFC 9114, section 8.1).
	requestCancelled = 0x10c
	// What goes at most of the body of a request that is broken off.
	begun = 20_000
)

func main() {
	if err := run(os.Args[1:]); err != nil {
		fmt.Fprintln(os.Stderr, "quic-go-peer:", err)
		os.Exit(1)
	}
}

func run(words []string) error {
	switch {
	case len(words) == 5 && words[0] == "server":
		return serve(words[1], words[2], words[3], words[4])
	case len(words) >= 4 && words[0] == "client":
		return load(protocol, words[1], words[2], words[3:])
	case len(words) >= 4 && words[0] == "hq-client":
		return load(hq, words[1], words[2], words[3:])
	case len(words) == 5 && words[0] == "h3-server":
		return serveHTTP(words[1], words[2], words[3], words[4])
	case len(words) == 5 && words[0] == "h3-client":
		count, err := strconv.Atoi(words[3])
		if err != nil {
			return err
		}
		return loadAnew(words[1], words[2], count, words[4])
	case len(words) == 5 && words[0] == "h3-times":
		count, err := strconv.Atoi(words[3])
		if err != nil {
			return err
		}
		return loadInTurn(words[1], words[2], count, words[4])
	case len(words) >= 5 && words[0] == "h3-resets":
		count, err := strconv.Atoi(words[3])
		if err != nil {
			return err
		}
		return loadAndBreakOff(words[1], words[2], count, words[4:])
	}
	return errors.New("server or h3-server DIR ADDR CERTIFICATE KEY, client or hq-client ADDR DIR PATH.., h3-client or h3-times ADDR DIR N PATH, or h3-resets ADDR DIR N PATH..")
}

func serve(folder, address, certificate, key string) error {
	pair, err := tls.LoadX509KeyPair(certificate, key)
	if err != nil {
		return err
	}
	config := &tls.Config{Certificates: []tls.Certificate{pair}, NextProtos: []string{protocol, hq}}
	listener, err := quic.ListenAddr(address, config, nil)
	if err != nil {
		return err
	}
	fmt.Println("listening on", listener.Addr())
	for {
		connection, err := listener.Accept(context.Background())
		if err != nil {
			return err
		}
		go serveConnection(folder, connection)
	}
}

func serveConnection(folder string, connection quic.Connection) {
	for {
		stream, err := connection.AcceptStream(context.Background())
		if err != nil {
			return
		}
		go serveStream(folder, stream)
	}
}

func serveStream(folder string, stream quic.Stream) {
	path, err := io.ReadAll(io.LimitReader(stream, mostPath))
	if err != nil {
		return
	}
	name := strings.TrimSpace(strings.TrimPrefix(string(path), "GET "))
	bytes, err := os.ReadFile(filepath.Join(folder, filepath.Clean("/"+name)))
	if err != nil {
		stream.CancelWrite(noFile)
		return
	}
	// A peer that is gone, or stopped the stream, wants no more.
	if _, err := stream.Write(bytes); err == nil {
		stream.Close()
	}
}

func load(name, address, folder string, paths []string) error {
	config := &tls.Config{InsecureSkipVerify: true, NextProtos: []string{name}}
	begin := time.Now()
	connection, err := quic.DialAddr(address, config, nil)
	if err != nil {
		return err
	}
	type loaded struct {
		count int
		err   error
	}
	came := make(chan loaded, len(paths))
	for _, path := range paths {
		go func(path string) {
			count, err := loadOne(connection, name, folder, path)
			came <- loaded{count, err}
		}(path)
	}
	count := 0
	for range paths {
		one := <-came
		if one.err != nil {
			return one.err
		}
		count += one.count
	}
	seconds := time.Since(begin).Seconds()
	fmt.Printf("%d bytes in %.3f s: %.2f MB/s\n", count, seconds, float64(count)/1e6/seconds)
	return connection.CloseWithError(0, "")
}

func loadOne(connection quic.Connection, protocol, folder, path string) (int, error) {
	stream, err := connection.OpenStreamSync(context.Background())
	if err != nil {
		return 0, err
	}
	request := path
	if protocol == hq {
		request = "GET /" + path + "\r\n"
	}
	if _, err := stream.Write([]byte(request)); err != nil {
		return 0, err
	}
	if err := stream.Close(); err != nil {
		return 0, err
	}
	bytes, err := io.ReadAll(stream)
	if err != nil {
		return 0, err
	}
	name := path[strings.LastIndex(path, "/")+1:]
	return len(bytes), os.WriteFile(filepath.Join(folder, name), bytes, 0o644)
}

func serveHTTP(folder, address, certificate, key string) error {
	pair, err := tls.LoadX509KeyPair(certificate, key)
	if err != nil {
		return err
	}
	socket, err := net.ListenPacket("udp", address)
	if err != nil {
		return err
	}
	files := http.FileServer(http.Dir(folder))
	answer := func(writer http.ResponseWriter, request *http.Request) {
		// A request that was broken off isn't answered.
		if _, err := io.Copy(io.Discard, request.Body); err != nil {
			panic(http.ErrAbortHandler)
		}
		files.ServeHTTP(writer, request)
	}
	server := http3.Server{
		TLSConfig: http3.ConfigureTLSConfig(&tls.Config{Certificates: []tls.Certificate{pair}}),
		Handler:   http.HandlerFunc(answer),
	}
	fmt.Println("listening on", socket.LocalAddr())
	return server.Serve(socket)
}

// loadAnew tells of each load that fails, and goes on with the next one.
func loadAnew(address, folder string, count int, path string) error {
	failed := 0
	for place := 0; place < count; place++ {
		client := &http3.RoundTripper{TLSClientConfig: &tls.Config{InsecureSkipVerify: true}}
		if err := loadHTTP(client, "https://"+address+"/"+path, filepath.Join(folder, path)); err != nil {
			fmt.Fprintln(os.Stderr, err)
			failed++
		}
		client.Close()
	}
	if failed > 0 {
		return fmt.Errorf("%d of %d loads failed", failed, count)
	}
	return nil
}

func loadInTurn(address, folder string, count int, path string) error {
	client := &http3.RoundTripper{TLSClientConfig: &tls.Config{InsecureSkipVerify: true}}
	defer client.Close()
	var times []time.Duration
	for place := 0; place < count; place++ {
		begin := time.Now()
		if err := loadHTTP(client, "https://"+address+"/"+path, filepath.Join(folder, path)); err != nil {
			return err
		}
		times = append(times, time.Since(begin))
	}
	sort.Slice(times, func(one, other int) bool { return times[one] < times[other] })
	fmt.Printf("%d us\n", times[count/2].Microseconds())
	return nil
}

func loadAndBreakOff(address, folder string, count int, paths []string) error {
	client := &http3.RoundTripper{TLSClientConfig: &tls.Config{InsecureSkipVerify: true}}
	defer client.Close()
	over := make(chan error)
	for _, path := range paths {
		url := "https://" + address + "/" + path
		for place := 0; place < count; place++ {
			go func(stops bool) { over <- breakOff(client, url, stops) }(place%2 == 1)
		}
		go func(path string) { over <- loadHTTP(client, url, filepath.Join(folder, path)) }(path)
	}
	for range make([]struct{}, (count+1)*len(paths)) {
		if err := <-over; err != nil {
			return err
		}
	}
	return nil
}

func loadHTTP(client *http3.RoundTripper, url, file string) error {
	request, err := http.NewRequest(http.MethodGet, url, nil)
	if err != nil {
		return err
	}
	response, err := client.RoundTrip(request)
	if err != nil {
		return err
	}
	defer response.Body.Close()
	if response.StatusCode != http.StatusOK {
		return fmt.Errorf("%s: %s", url, response.Status)
	}
	bytes, err := io.ReadAll(response.Body)
	if err != nil {
		return err
	}
	return os.WriteFile(file, bytes, 0o644)
}

// breakOff begins a request with a body, and breaks it off by RESET_STREAM: its body fails, or, with STOP_SENDING, it is given up.
func breakOff(client *http3.RoundTripper, url string, stops bool) error {
	reader, writer := io.Pipe()
	context, giveUp := context.WithCancel(context.Background())
	defer giveUp()
	request, err := http.NewRequestWithContext(context, http.MethodGet, url, reader)
	if err != nil {
		return err
	}
	go func() {
		writer.Write(make([]byte, begun))
		if stops {
			giveUp()
		}
		writer.CloseWithError(errors.New("given up"))
	}()
	response, err := client.RoundTrip(request)
	if err == nil {
		response.Body.Close()
		return errors.New("a request that was broken off is answered")
	}
	// The server breaks its half off, too.
	var code *quic.StreamError
	if !stops && !(errors.As(err, &code) && code.ErrorCode == requestCancelled) {
		return err
	}
	return nil
}
