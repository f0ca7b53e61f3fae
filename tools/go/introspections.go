// Reads access tokens from standard input, one a line, and prints of each whether it is active. The
// arguments are the introspection endpoint, the client, and `kept` for connections from a pool or
// `each` for one connection a request. The environment has CLIENT_SECRET.
package main

import (
	"bufio"
	"encoding/json"
	"fmt"
	"io"
	"log"
	"net/http"
	"net/url"
	"os"
	"strings"
)

// RFC 7662, 2.2.
type introspection struct {
	Active    bool            `json:"active"`
	Scope     string          `json:"scope"`
	ClientID  string          `json:"client_id"`
	Username  string          `json:"username"`
	TokenType string          `json:"token_type"`
	Exp       int64           `json:"exp"`
	Iat       int64           `json:"iat"`
	Nbf       int64           `json:"nbf"`
	Sub       string          `json:"sub"`
	Aud       json.RawMessage `json:"aud"`
	Iss       string          `json:"iss"`
	Jti       string          `json:"jti"`
}

func introspect(client *http.Client, endpoint, id, secret, token string) (bool, error) {
	form := url.Values{"token": {token}}.Encode()
	request, err := http.NewRequest("POST", endpoint, strings.NewReader(form))
	if err != nil {
		return false, err
	}
	request.Header.Set("Accept", "application/json")
	request.Header.Set("Content-Type", "application/x-www-form-urlencoded")
	request.SetBasicAuth(url.QueryEscape(id), url.QueryEscape(secret))
	response, err := client.Do(request)
	if err != nil {
		return false, err
	}
	defer response.Body.Close()
	if response.StatusCode != http.StatusOK {
		return false, fmt.Errorf("status %d", response.StatusCode)
	}
	body, err := io.ReadAll(response.Body)
	if err != nil {
		return false, err
	}
	var found introspection
	err = json.Unmarshal(body, &found)
	return found.Active, err
}

func main() {
	endpoint, id, secret := os.Args[1], os.Args[2], os.Getenv("CLIENT_SECRET")
	client := &http.Client{Transport: &http.Transport{
		DisableCompression: true,
		DisableKeepAlives:  os.Args[3] == "each",
	}}
	lines := bufio.NewScanner(os.Stdin)
	for lines.Scan() {
		active, err := introspect(client, endpoint, id, secret, lines.Text())
		switch {
		case err != nil:
			log.Fatal(err)
		case active:
			fmt.Println("active")
		default:
			fmt.Println("inactive")
		}
	}
}
