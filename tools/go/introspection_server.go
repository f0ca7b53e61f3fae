// An introspection endpoint for tools/bench-introspections, over TCP and over TLS: it answers each
// request with one stored reply, and keeps the connection unless the request says otherwise. The
// arguments are the files of a certificate and its key.
//
// Prints its two ports; and for each line of standard input how many connections and requests came
// since the last one. Ends with the end of standard input.
package main

import (
	"bufio"
	"bytes"
	"crypto/tls"
	"fmt"
	"io"
	"log"
	"net"
	"os"
	"strconv"
	"strings"
	"sync/atomic"
)

// The response of RFC 7662, 2.2, without its extension, for a token that expires in 2100.
const body = `{"active":true,"client_id":"l238j323ds-23ij4","username":"jdoe",` +
	`"scope":"read write dolphin","sub":"Z5O3upPC88QrAjx00dis",` +
	`"aud":"https://protected.example.net/resource","iss":"https://server.example.com/",` +
	`"exp":4102444800,"iat":1419350238}`

var connections, requests int64

// Reads a request: whether it came whole, and whether the connection is to be closed after it.
func readRequest(reader *bufio.Reader) (came, closes bool) {
	length := 0
	for {
		line, err := reader.ReadSlice('\n')
		if err != nil {
			return false, false
		}
		line = bytes.TrimRight(line, "\r\n")
		if len(line) == 0 {
			break
		}
		name, value, _ := bytes.Cut(line, []byte(":"))
		switch value := strings.TrimSpace(string(value)); strings.ToLower(string(name)) {
		case "content-length":
			length, _ = strconv.Atoi(value)
		case "connection":
			closes = strings.EqualFold(value, "close")
		}
	}
	_, err := reader.Discard(length)
	return err == nil, closes
}

func converse(connection net.Conn, reply []byte) {
	defer connection.Close()
	counted := false
	reader := bufio.NewReader(connection)
	for {
		came, closes := readRequest(reader)
		if !came {
			return
		}
		if !counted {
			counted = true
			atomic.AddInt64(&connections, 1)
		}
		atomic.AddInt64(&requests, 1)
		if _, err := connection.Write(reply); err != nil || closes {
			return
		}
	}
}

func serve(listener net.Listener, reply []byte) {
	for {
		connection, err := listener.Accept()
		if err != nil {
			log.Fatal(err)
		}
		go converse(connection, reply)
	}
}

func listen() net.Listener {
	listener, err := net.Listen("tcp", "127.0.0.1:0")
	if err != nil {
		log.Fatal(err)
	}
	return listener
}

func port(listener net.Listener) int {
	return listener.Addr().(*net.TCPAddr).Port
}

func main() {
	pair, err := tls.LoadX509KeyPair(os.Args[1], os.Args[2])
	if err != nil {
		log.Fatal(err)
	}
	reply := []byte(fmt.Sprintf("HTTP/1.1 200 OK\r\nContent-Type: application/json\r\n"+
		"Content-Length: %d\r\n\r\n%s", len(body), body))
	plain, secure := listen(), listen()
	go serve(plain, reply)
	go serve(tls.NewListener(secure, &tls.Config{Certificates: []tls.Certificate{pair}}), reply)
	fmt.Println(port(plain), port(secure))
	lines := bufio.NewReader(os.Stdin)
	for {
		if _, err := lines.ReadString('\n'); err == io.EOF {
			return
		}
		fmt.Println(atomic.SwapInt64(&connections, 0), atomic.SwapInt64(&requests, 0))
	}
}
