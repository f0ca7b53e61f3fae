/* Gets an access token by client credentials (RFC 6749, 4.4), and prints it.
 *
 *     cc token.c -llifecrib -lcurl -ljson-c -o token
 *     CLIENT_SECRET=bbb ./token https://as.example/token aaa
 */
#include <curl/curl.h>
#include <json-c/json.h>
#include <stdio.h>
#include <stdlib.h>
#include <string.h>

#include "lifecrib.h"

#define MOST_BYTES (1 << 20) /* of a reply's body */
#define MOST_SECONDS 30L     /* of an exchange */
#define MOST_DEPTH 160       /* of a result, which has the reply in it: the library reads one nested 127 deep */

static void stop(const char *why) {
    fprintf(stderr, "token: %s\n", why);
    exit(1);
}

static void *room_of(size_t size) {
    void *room = calloc(size ? size : 1, 1);
    if (!room) stop("out of memory");
    return room;
}

static json_object *member(json_object *of, const char *name) {
    return json_object_object_get(of, name);
}

static const char *text(json_object *of, const char *name) {
    return json_object_get_string(member(of, name));
}

static void put(json_object *into, const char *name, const char *value) {
    json_object_object_add(into, name, json_object_new_string(value));
}

/* The result of a script's run, which the caller gives back by json_object_put. */
static json_object *run(json_object *script) {
    size_t script_length, length, size = 8192;
    const char *given = json_object_to_json_string_length(script, JSON_C_TO_STRING_PLAIN, &script_length);
    char *output = room_of(size);
    int status = lifecrib_run((const uint8_t *)given, script_length, (uint8_t *)output, size, &length);
    if (length > size) { /* it did not fit */
        free(output);
        output = room_of(size = length);
        status = lifecrib_run((const uint8_t *)given, script_length, (uint8_t *)output, size, &length);
    }
    if (status == LIFECRIB_NO_MEMORY) stop("out of memory");
    json_tokener *reader = json_tokener_new_ex(MOST_DEPTH);
    if (!reader) stop("out of memory");
    json_object *result = json_tokener_parse_ex(reader, output, (int)length);
    json_tokener_free(reader);
    free(output);
    if (!result) stop("bad script");
    return result;
}

/* The bytes of a body, as they come. */
struct body {
    char *bytes;
    size_t length;
};

static size_t take(char *bytes, size_t one, size_t count, void *to) {
    struct body *body = to;
    if (count > MOST_BYTES - body->length) return 0; /* which fails the exchange */
    memcpy(body->bytes + body->length, bytes, count);
    body->length += count;
    return one * count;
}

static json_object *base64_of(const struct body *body) {
    static const char digits[] = "ABCDEFGHIJKLMNOPQRSTUVWXYZabcdefghijklmnopqrstuvwxyz0123456789+/";
    char *text = room_of(body->length / 3 * 4 + 5), *end = text;
    for (size_t at = 0; at < body->length; at += 3) {
        size_t left = body->length - at, bits = 0;
        for (size_t next = 0; next < 3; next++) bits = bits << 8 | (next < left ? (unsigned char)body->bytes[at + next] : 0);
        for (size_t next = 0; next < 4; next++) *end++ = next <= left ? digits[bits >> (18 - 6 * next) & 63] : '=';
    }
    json_object *made = json_object_new_string(text);
    free(text);
    return made;
}

/* Whether no other machine can read what goes to a URL: it is https, or one of this machine. */
static int is_private(const char *url) {
    static const char here[] = "http://127.0.0.1";
    if (!strncmp(url, "https://", 8)) return 1;
    if (strncmp(url, here, strlen(here))) return 0;
    url += strlen(here);
    return url[strspn(url, ":0123456789")] == '/';
}

/* Sends a request: the reply as an entry of a script's `replies`. */
static json_object *reply_to(json_object *request) {
    CURL *curl = curl_easy_init();
    if (!curl) stop("libcurl does not start");
    struct body body = {room_of(MOST_BYTES), 0};
    struct curl_slist *lines = NULL;
    json_object *headers = member(request, "headers"), *reply = json_object_new_object();
    for (size_t at = 0; at < json_object_array_length(headers); at++) {
        json_object *header = json_object_array_get_idx(headers, at);
        const char *name = json_object_get_string(json_object_array_get_idx(header, 0));
        const char *value = json_object_get_string(json_object_array_get_idx(header, 1));
        char *line = room_of(strlen(name) + strlen(value) + 3);
        sprintf(line, "%s: %s", name, value);
        if (!(lines = curl_slist_append(lines, line))) stop("out of memory");
        free(line);
    }
    curl_easy_setopt(curl, CURLOPT_URL, text(request, "url"));
    curl_easy_setopt(curl, CURLOPT_HTTPHEADER, lines);
    if (!strcmp(text(request, "method"), "POST")) curl_easy_setopt(curl, CURLOPT_POSTFIELDS, text(request, "body"));
    curl_easy_setopt(curl, CURLOPT_TIMEOUT, MOST_SECONDS);
    curl_easy_setopt(curl, CURLOPT_NOSIGNAL, 1L);
    curl_easy_setopt(curl, CURLOPT_WRITEFUNCTION, take);
    curl_easy_setopt(curl, CURLOPT_WRITEDATA, &body);
    CURLcode fault = CURLE_UNSUPPORTED_PROTOCOL;
    if (is_private(text(request, "url"))) fault = curl_easy_perform(curl); /* which follows no redirect */
    if (fault) {
        fprintf(stderr, "token: %s\n", curl_easy_strerror(fault));
        json_object_object_add(reply, "fail", json_object_new_boolean(1));
    } else {
        long status = 0;
        char *content_type = NULL;
        curl_easy_getinfo(curl, CURLINFO_RESPONSE_CODE, &status);
        curl_easy_getinfo(curl, CURLINFO_CONTENT_TYPE, &content_type);
        json_object_object_add(reply, "status", json_object_new_int64(status));
        if (content_type) put(reply, "content_type", content_type);
        json_object_object_add(reply, "body_base64", base64_of(&body));
    }
    curl_slist_free_all(lines);
    curl_easy_cleanup(curl);
    free(body.bytes);
    return reply;
}

/* Runs a script, sends each request that it has no reply to, and returns the last event of the run that needs
 * none. The caller gives it back by json_object_put. */
static json_object *last_event(json_object *script) {
    json_object *replies = json_object_new_array(), *request = NULL;
    json_object_object_add(script, "replies", replies);
    for (;;) {
        json_object *result = run(script), *events = member(result, "events"), *event = NULL;
        size_t exchanges = 0;
        for (size_t at = 0; at < json_object_array_length(events); at++) {
            event = json_object_array_get_idx(events, at);
            if (strcmp(text(event, "event"), "exchange")) continue;
            exchanges++;
            request = member(event, "request");
        }
        int is_whole = exchanges <= json_object_array_length(replies);
        if (is_whole) json_object_get(event);
        else json_object_array_add(replies, reply_to(request));
        json_object_put(result);
        if (is_whole) return event;
    }
}

int main(int count, char **words) {
    const char *secret = getenv("CLIENT_SECRET");
    if (count != 3 || !secret) stop("usage: CLIENT_SECRET=SECRET token TOKEN_URL CLIENT");
    json_object *script = json_tokener_parse("{\"command\": \"client_credentials\", \"result\": \"json\", \"client\": {}}");
    put(member(script, "client"), "token_url", words[1]);
    put(member(script, "client"), "id", words[2]);
    put(member(script, "client"), "secret", secret);
    json_object *event = last_event(script); /* sends the request by libcurl */
    int is_answer = !strcmp(text(event, "event"), "answer");
    if (is_answer) puts(text(member(event, "answer"), "access_token"));
    else fprintf(stderr, "token: %s\n", text(event, member(event, "text") ? "text" : "event"));
    json_object_put(event);
    json_object_put(script);
    return is_answer ? 0 : 1;
}
