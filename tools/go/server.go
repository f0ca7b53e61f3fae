// A server of net/http on the port of this machine that its first argument names, which ends with its standard input. Its paths are
// those of tools/judging_servers.py.
package main

import (
	"encoding/json"
	"fmt"
	"io"
	"net/http"
	"os"
	"strconv"
	"strings"
	"time"
)

func number(path string) int {
	found, err := strconv.Atoi(path[strings.LastIndex(path, "/")+1:])
	if err != nil {
		return 0
	}
	return found
}

// What the server has understood of a request.
func echo(w http.ResponseWriter, r *http.Request) {
	body, err := io.ReadAll(r.Body)
	if err != nil {
		panic(http.ErrAbortHandler)
	}
	told := map[string]interface{}{"method": r.Method, "target": r.RequestURI, "body": body, "agent": r.UserAgent(),
		"coding": r.Header["Accept-Encoding"]}
	w.Header().Set("Content-Type", "application/json")
	text, err := json.Marshal(told)
	if err != nil {
		panic(err)
	}
	w.Write(text)
}

func octets(w http.ResponseWriter, r *http.Request) {
	length := number(r.URL.Path)
	w.Header().Set("Content-Length", strconv.Itoa(length))
	w.Header().Set("Content-Type", "application/octet-stream")
	w.Write([]byte(strings.Repeat("x", length)))
}

func chunked(w http.ResponseWriter, r *http.Request) {
	w.Header().Set("Trailer", "X-Sum")
	for left := number(r.URL.Path); left > 0; left -= 7 {
		w.Write([]byte(strings.Repeat("y", min(left, 7))))
		w.(http.Flusher).Flush()
	}
	w.Header().Set("X-Sum", "1")
}

func min(a, b int) int {
	if a < b {
		return a
	}
	return b
}

func status(w http.ResponseWriter, r *http.Request) {
	w.Header().Set("Location", "/elsewhere")
	code := number(r.URL.Path)
	w.WriteHeader(code)
	if code != 204 && code != 304 {
		fmt.Fprintf(w, "status %d", code)
	}
}

func hints(w http.ResponseWriter, r *http.Request) {
	w.Header().Set("Link", "</a.css>; rel=preload")
	w.WriteHeader(http.StatusEarlyHints)
	fmt.Fprint(w, "hinted")
}

func closing(w http.ResponseWriter, r *http.Request) {
	w.Header().Set("Connection", "close")
	fmt.Fprint(w, "closing")
}

// Writes bytes of its own, and closes the connection.
func raw(text string) http.HandlerFunc {
	return func(w http.ResponseWriter, r *http.Request) {
		connection, buffered, err := w.(http.Hijacker).Hijack()
		if err != nil {
			panic(err)
		}
		defer connection.Close()
		buffered.WriteString(text)
		buffered.Flush()
	}
}

func main() {
	paths := map[string]http.HandlerFunc{"/echo/": echo, "/bytes/": octets, "/chunked/": chunked, "/status/": status, "/hints": hints,
		"/closing": closing, "/cut": raw("HTTP/1.1 200 OK\r\nContent-Length: 9\r\n\r\ncut"), "/gone": raw(
			"HTTP/1.1 200 OK\r\nContent-Length: 4\r\n\r\ngone"), "/old": raw("HTTP/1.0 200 OK\r\n\r\nold"), "/silent": raw("")}
	for path, handler := range paths {
		http.HandleFunc(path, handler)
	}
	server := &http.Server{Addr: "127.0.0.1:" + os.Args[1], IdleTimeout: time.Minute}
	go func() {
		panic(server.ListenAndServe())
	}()
	io.Copy(io.Discard, os.Stdin)
}
