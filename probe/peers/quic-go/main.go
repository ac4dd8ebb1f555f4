// quic-go-sink ADDR CERTIFICATE.pem KEY.pem: over quic-go what gotsavena-sink does over our streams. It reads and drops every stream,
// answers "ok" on each bidirectional one that ends, and opens one stream of either direction with "hi".
package main

import (
	"context"
	"crypto/tls"
	"fmt"
	"io"
	"os"

	"github.com/lucas-clemente/quic-go"
)

// The code with which a stream's answer is given up.
const givenUp = 9

func main() {
	if err := serve(os.Args[1:]); err != nil {
		fmt.Fprintln(os.Stderr, "quic-go-sink:", err)
		os.Exit(1)
	}
}

func serve(words []string) error {
	if len(words) != 3 {
		return fmt.Errorf("usage: quic-go-sink ADDR CERTIFICATE.pem KEY.pem")
	}
	pair, err := tls.LoadX509KeyPair(words[1], words[2])
	if err != nil {
		return err
	}
	config := &tls.Config{Certificates: []tls.Certificate{pair}, NextProtos: []string{"gotsavena-raw"}}
	listener, err := quic.ListenAddr(words[0], config, &quic.Config{
		InitialStreamReceiveWindow: 8192, MaxStreamReceiveWindow: 8192,
		InitialConnectionReceiveWindow: 20000, MaxConnectionReceiveWindow: 20000,
		MaxIncomingStreams: 16, MaxIncomingUniStreams: 16, DisablePathMTUDiscovery: true,
	})
	if err != nil {
		return err
	}
	fmt.Println("listening on", listener.Addr())
	for {
		connection, err := listener.Accept(context.Background())
		if err != nil {
			return err
		}
		go open(connection)
		go drainUni(connection)
		go drainBidi(connection)
	}
}

func open(connection quic.Connection) {
	if stream, err := connection.OpenUniStream(); err == nil {
		_, _ = stream.Write([]byte("hi"))
	}
	if stream, err := connection.OpenStream(); err == nil {
		_, _ = stream.Write([]byte("hi"))
	}
}

func drainUni(connection quic.Connection) {
	for {
		stream, err := connection.AcceptUniStream(context.Background())
		if err != nil {
			return
		}
		go func() { _, _ = io.Copy(io.Discard, stream) }()
	}
}

func drainBidi(connection quic.Connection) {
	for {
		stream, err := connection.AcceptStream(context.Background())
		if err != nil {
			return
		}
		go answer(stream)
	}
}

func answer(stream quic.Stream) {
	if _, err := io.Copy(io.Discard, stream); err != nil {
		stream.CancelWrite(givenUp)
		return
	}
	_, _ = stream.Write([]byte("ok"))
	_ = stream.Close()
}
