// Gets an access token by client credentials (RFC 6749, 4.4), and prints it:
//
//	go build -o token && CLIENT_SECRET=bbb ./token https://as.example/token aaa
//
// pkg-config has to find lifecrib.pc (PKG_CONFIG_PATH).
package main

// #cgo pkg-config: lifecrib
// #include <lifecrib.h>
import "C"

import (
	"encoding/json"
	"errors"
	"fmt"
	"io"
	"net/http"
	"os"
	"strings"
	"time"
	"unsafe"
)

const (
	mostBytes   = 1 << 20 // of a reply's body
	mostSeconds = 30      // of an exchange
)

// A script, with the members that this program needs.
type script struct {
	Result  string         `json:"result"`
	Command string         `json:"command"`
	Client  map[string]any `json:"client"`
	Params  map[string]any `json:"params"`
	Replies []reply        `json:"replies"`
}

// A reply, or an exchange that failed.
type reply map[string]any

type request struct {
	Method  string      `json:"method"`
	URL     string      `json:"url"`
	Headers [][2]string `json:"headers"`
	Body    string      `json:"body"`
}

// An event, with the members that this program needs.
type event struct {
	Event   string          `json:"event"`
	Request *request        `json:"request"`
	Answer  json.RawMessage `json:"answer"`
	Kind    string          `json:"kind"`
	Text    string          `json:"text"`
}

// The result of a script's run, by the library.
func call(given []byte) (status int, output []byte) {
	output = make([]byte, 8192)
	for {
		var length C.size_t
		status = int(C.lifecrib_run((*C.uint8_t)(unsafe.Pointer(&given[0])), C.size_t(len(given)),
			(*C.uint8_t)(unsafe.Pointer(&output[0])), C.size_t(len(output)), &length))
		if int(length) <= len(output) {
			return status, output[:length]
		}
		output = make([]byte, length) // it did not fit
	}
}

// The events of a script's run.
func run(it *script) ([]event, error) {
	given, err := json.Marshal(it)
	if err != nil {
		return nil, err
	}
	status, output := call(given)
	if status == C.LIFECRIB_NO_MEMORY {
		return nil, errors.New("out of memory")
	}
	var result struct {
		Events []event `json:"events"`
	}
	if err := json.Unmarshal(output, &result); err != nil {
		return nil, err
	}
	if len(result.Events) == 0 {
		return nil, errors.New("a result without events")
	}
	return result.Events, nil
}

// Follows no redirect: a token endpoint sends none (RFC 9700, 4.12).
var client = http.Client{
	Timeout:       mostSeconds * time.Second,
	CheckRedirect: func(*http.Request, []*http.Request) error { return http.ErrUseLastResponse },
}

// Sends a request, if no other machine can read it: its URL is https, or one of this machine.
func send(it *request) (reply, error) {
	made, err := http.NewRequest(it.Method, it.URL, strings.NewReader(it.Body))
	if err != nil {
		return nil, err
	}
	if to := made.URL; to.Scheme != "https" && (to.Scheme != "http" || to.Hostname() != "127.0.0.1") {
		return nil, errors.New("not sent: the URL is not https")
	}
	for _, header := range it.Headers {
		made.Header.Add(header[0], header[1])
	}
	response, err := client.Do(made)
	if err != nil {
		return nil, err
	}
	defer response.Body.Close()
	body, err := io.ReadAll(io.LimitReader(response.Body, mostBytes+1))
	if err == nil && len(body) > mostBytes {
		err = errors.New("the reply is too long")
	}
	if err != nil {
		return nil, err
	}
	found := reply{"status": response.StatusCode, "body_base64": body} // json writes bytes in base64
	if values := response.Header.Values("Content-Type"); len(values) > 0 {
		found["content_type"] = values[0]
	}
	return found, nil
}

// Runs a script, sends each request that it has no reply to, and returns the last event of the run that needs
// none.
func lastEvent(it *script) (event, error) {
	it.Replies = []reply{}
	for {
		events, err := run(it)
		if err != nil {
			return event{}, err
		}
		var next *request
		exchanges := 0
		for _, one := range events {
			if one.Event == "exchange" {
				exchanges++
				next = one.Request
			}
		}
		if exchanges <= len(it.Replies) {
			return events[len(events)-1], nil
		}
		found, err := send(next)
		if err != nil {
			fmt.Fprintln(os.Stderr, "token:", err)
			found = reply{"fail": true}
		}
		it.Replies = append(it.Replies, found)
	}
}

func token(url, id, secret string) (string, error) {
	end, err := lastEvent(&script{
		Result:  "json",
		Command: "client_credentials",
		Client:  map[string]any{"token_url": url, "id": id, "secret": secret},
		Params:  map[string]any{},
	})
	if err != nil {
		return "", err
	}
	if end.Event != "answer" {
		return "", errors.New(end.Event + ": " + end.Text)
	}
	var answer struct {
		AccessToken string `json:"access_token"`
	}
	err = json.Unmarshal(end.Answer, &answer)
	return answer.AccessToken, err
}

func main() {
	secret, given := os.LookupEnv("CLIENT_SECRET")
	if len(os.Args) != 3 || !given {
		fmt.Fprintln(os.Stderr, "usage: CLIENT_SECRET=SECRET token TOKEN_URL CLIENT")
		os.Exit(1)
	}
	found, err := token(os.Args[1], os.Args[2], secret)
	if err != nil {
		fmt.Fprintln(os.Stderr, "token:", err)
		os.Exit(1)
	}
	fmt.Println(found)
}
