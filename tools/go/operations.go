// The operations of oauth2_bench by golang.org/x/oauth2: the same names, inputs and output. It ends
// with an error unless the last request and what was read are what they have to be.
package main

import (
	"context"
	"fmt"
	"io"
	"log"
	"net/http"
	"net/url"
	"os"
	"strconv"
	"strings"
	"time"

	"golang.org/x/oauth2"
)

const short = `{"access_token": "12/34", "token_type": "BEARER"}`

// That of the verifier in RFC 7636, appendix B.
const challenge = "E9Melhoa2OwvFrEMTJguCHaoeK1t8URWbuGJSstw-cM"

func token(size int) string {
	return strings.Repeat("abcdefghijklmnopqrstuvwxyz", size/26+1)[:size]
}

func long(size int) string {
	return `{"access_token":"` + token(size) + `","token_type":"bearer","expires_in":3600,` +
		`"refresh_token":"r1","scope":"read write"}`
}

func config() *oauth2.Config {
	return &oauth2.Config{
		ClientID:     "aaa",
		ClientSecret: "bbb",
		Endpoint: oauth2.Endpoint{
			AuthURL:   "https://example.com/auth",
			TokenURL:  "https://example.com/token",
			AuthStyle: oauth2.AuthStyleInHeader,
		},
	}
}

// A transport that hands back one reply, whatever it is asked.
type canned struct {
	body string
	last *http.Request
}

func (c *canned) RoundTrip(request *http.Request) (*http.Response, error) {
	c.last = request
	request.Body.Close()
	return &http.Response{
		StatusCode: http.StatusOK,
		Header:     http.Header{},
		Body:       io.NopCloser(strings.NewReader(c.body)),
		Request:    request,
	}, nil
}

func demand(found, wanted interface{}) {
	if found != wanted {
		log.Fatalf("%v in place of %v", found, wanted)
	}
}

// What is timed tells how many bytes it sent and read.
type operation func() (int, int)

// The exchange of a code, and what the token has to be.
func exchange(body string, wanted oauth2.Token) (operation, func()) {
	client, transport := config(), &canned{body: body}
	ctx := context.WithValue(context.Background(), oauth2.HTTPClient, &http.Client{Transport: transport})
	var got *oauth2.Token
	run := func() (int, int) {
		var err error
		if got, err = client.Exchange(ctx, "ccc"); err != nil {
			log.Fatal(err)
		}
		return int(transport.last.ContentLength), len(got.AccessToken)
	}
	return run, func() {
		sent, _ := transport.last.GetBody()
		form, _ := io.ReadAll(sent)
		demand(transport.last.Method+" "+transport.last.URL.String(), "POST https://example.com/token")
		demand(transport.last.Header.Get("Authorization"), "Basic YWFhOmJiYg==")
		demand(transport.last.Header.Get("Content-Type"), "application/x-www-form-urlencoded")
		demand(string(form), "code=ccc&grant_type=authorization_code")
		demand(got.AccessToken, wanted.AccessToken)
		demand(got.TokenType, wanted.TokenType)
		demand(got.RefreshToken, wanted.RefreshToken)
		demand(got.Expiry.IsZero(), wanted.RefreshToken == "")
	}
}

func authorizationURL() (operation, func()) {
	client := config()
	client.RedirectURL, client.Scopes = "https://localhost/redirect", []string{"read", "write", "openid"}
	var got string
	run := func() (int, int) {
		got = client.AuthCodeURL("csrf_token", oauth2.SetAuthURLParam("code_challenge", challenge),
			oauth2.SetAuthURLParam("code_challenge_method", "S256"))
		return 0, len(got)
	}
	return run, func() {
		address, query, _ := strings.Cut(got, "?")
		pairs, _ := url.ParseQuery(query)
		demand(address, "https://example.com/auth")
		demand(fmt.Sprint(pairs), "map[client_id:[aaa] code_challenge:["+challenge+"] "+
			"code_challenge_method:[S256] redirect_uri:[https://localhost/redirect] "+
			"response_type:[code] scope:[read write openid] state:[csrf_token]]")
	}
}

var names = []string{"a_code_exchange", "c_authorize_url_pkce_3_scopes_redirect", "e_token_4kb_request"}

func named(name string) (operation, func()) {
	switch name {
	case "a_code_exchange":
		return exchange(short, oauth2.Token{AccessToken: "12/34", TokenType: "BEARER"})
	case "c_authorize_url_pkce_3_scopes_redirect":
		return authorizationURL()
	case "e_token_4kb_request":
		return exchange(long(4<<10), oauth2.Token{AccessToken: token(4 << 10), TokenType: "bearer", RefreshToken: "r1"})
	}
	os.Exit(2)
	return nil, nil
}

// Runs an operation so often: how long that took, and what the last run sent and read.
func measure(name string, iterations int) (taken time.Duration, sent, read int) {
	run, check := named(name)
	start := time.Now()
	for i := 0; i < iterations; i++ {
		sent, read = run()
	}
	taken = time.Since(start)
	check()
	return
}

func main() {
	if len(os.Args) == 4 && os.Args[1] == "--time" {
		iterations, err := strconv.Atoi(os.Args[3])
		if err != nil {
			log.Fatal(err)
		}
		taken, _, _ := measure(os.Args[2], iterations)
		fmt.Println(taken.Nanoseconds())
		return
	}
	for _, name := range names {
		_, sent, read := measure(name, 3)
		fmt.Println(name, sent, read)
	}
}
