// What net/http reads of the replies on one connection in memory. Each line of standard input is JSON: the requests, each its method
// and whether it says `close`, and for each the pieces that come once it is written, in Base64. For each line it writes one: for each
// request until one is refused or goes to another connection, the status, the first Content-Type (null where there is none) and the
// body in Base64, or the text of the error; null where it goes to another connection.
package main

import (
	"bufio"
	"context"
	"encoding/base64"
	"encoding/json"
	"errors"
	"fmt"
	"io"
	"log"
	"net"
	"net/http"
	"os"
	"strings"
	"sync"
	"time"
)

type input struct {
	Requests [][2]interface{}
	Pieces   [][]string
}

var errOther = errors.New("another connection")

// A connection that gives the pieces of a request once that is written.
type played struct {
	lock    sync.Mutex
	wake    *sync.Cond
	groups  [][][]byte
	asked   int
	first   int
	closed  bool
	written string
}

func (p *played) Write(piece []byte) (int, error) {
	p.lock.Lock()
	defer p.lock.Unlock()
	p.written += string(piece)
	if strings.Contains(p.written, "\r\n\r\n") {
		p.written = ""
		p.asked++
		p.wake.Broadcast()
	}
	return len(piece), nil
}

func (p *played) Read(room []byte) (int, error) {
	p.lock.Lock()
	defer p.lock.Unlock()
	for {
		for at := 0; at < p.asked && at < len(p.groups); at++ {
			if len(p.groups[at]) == 0 {
				continue
			}
			if p.first < p.asked { // the transport first has to know that the request is written
				p.first = p.asked
				time.Sleep(time.Millisecond)
			}
			n := copy(room, p.groups[at][0])
			p.groups[at][0] = p.groups[at][0][n:]
			if len(p.groups[at][0]) == 0 {
				p.groups[at] = p.groups[at][1:]
			}
			return n, nil
		}
		if p.closed || p.asked >= len(p.groups) {
			return 0, io.EOF
		}
		p.wake.Wait()
	}
}

func (p *played) Close() error {
	p.lock.Lock()
	defer p.lock.Unlock()
	p.closed = true
	p.wake.Broadcast()
	return nil
}

func (p *played) LocalAddr() net.Addr              { return nil }
func (p *played) RemoteAddr() net.Addr             { return nil }
func (p *played) SetDeadline(time.Time) error      { return nil }
func (p *played) SetReadDeadline(time.Time) error  { return nil }
func (p *played) SetWriteDeadline(time.Time) error { return nil }

func clientOf(p *played) *http.Client {
	dialled := false
	dial := func(context.Context, string, string) (net.Conn, error) {
		if dialled {
			return nil, errOther
		}
		dialled = true
		return p, nil
	}
	transport := &http.Transport{DialContext: dial, DisableCompression: true}
	last := func(*http.Request, []*http.Request) error { return http.ErrUseLastResponse }
	return &http.Client{Transport: transport, CheckRedirect: last, Timeout: 2 * time.Second}
}

// What is read of one reply, and whether another one may follow.
func ask(client *http.Client, method string, closes bool) (interface{}, bool) {
	request, err := http.NewRequest(method, "http://localhost/", nil)
	if err != nil {
		log.Fatal(err)
	}
	request.Close = closes
	response, err := client.Do(request)
	if errors.Is(err, errOther) {
		return nil, false
	}
	if err != nil {
		return err.Error(), false
	}
	defer response.Body.Close()
	body, err := io.ReadAll(response.Body)
	if err != nil {
		return err.Error(), false
	}
	var kind interface{}
	if values := response.Header["Content-Type"]; len(values) > 0 {
		kind = []byte(values[0])
	}
	return []interface{}{response.StatusCode, kind, body}, true
}

func replies(in input) []interface{} {
	p := &played{}
	p.wake = sync.NewCond(&p.lock)
	for _, group := range in.Pieces {
		pieces := [][]byte{}
		for _, it := range group {
			piece, err := base64.StdEncoding.DecodeString(it)
			if err != nil {
				log.Fatal(err)
			}
			pieces = append(pieces, piece)
		}
		p.groups = append(p.groups, pieces)
	}
	client, found := clientOf(p), []interface{}{}
	defer client.CloseIdleConnections()
	for _, it := range in.Requests {
		told, more := ask(client, it[0].(string), it[1].(bool))
		found = append(found, told)
		if !more {
			break
		}
		time.Sleep(2 * time.Millisecond) // bytes beyond a reply are seen only behind it
	}
	return found
}

func main() {
	log.SetOutput(io.Discard) // net/http tells of bytes that nobody asked for
	lines := bufio.NewReader(os.Stdin)
	for {
		line, err := lines.ReadBytes('\n')
		if err == io.EOF {
			return
		}
		var in input
		if err := json.Unmarshal(line, &in); err != nil {
			panic(err)
		}
		told, err := json.Marshal(replies(in))
		if err != nil {
			panic(err)
		}
		fmt.Println(string(told))
	}
}
