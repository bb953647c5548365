package main

import (
	"encoding/json"
	"net/http"
	"strconv"
	"strings"
	"time"
)

// oldestClient is the version from which on clients don't tell their endpoints in
// the poll itself, where tailnetd doesn't read them (tailcfg, CapabilityVersion 68).
const oldestClient = 68

// outside serves what comes without Noise.
func (f *front) outside(rw http.ResponseWriter, r *http.Request) {
	w, start := &reply{ResponseWriter: rw, machine: "-"}, time.Now()
	from := addressOf(r.RemoteAddr)
	defer func() { f.log.line(from, w.machine, r.Method, r.URL, w.status, time.Since(start)) }()

	method, path := http.MethodGet, r.URL.Path
	if path == "/ts2021" {
		method = http.MethodPost
	}
	isPage := strings.HasPrefix(path, registerPath)
	switch {
	case path != "/key" && path != "/ts2021" && path != "/health" && !isPage:
		w.say(http.StatusNotFound, "no such path")
	case r.Method != method:
		w.Header().Set("Allow", method)
		w.say(http.StatusMethodNotAllowed, method+" alone")
	case path == "/key":
		f.serveKey(w, r.URL.Query().Get("v"))
	case path == "/ts2021":
		f.upgrade(w, r, from)
	case isPage:
		f.registerPage(w, strings.TrimPrefix(path, registerPath))
	case f.server.takesConnections(f.context):
		w.say(http.StatusOK, "ok")
	default:
		w.say(http.StatusServiceUnavailable, "the control server can't be reached")
	}
}

// serveKey tells the front's static key to a client of a version: tailcfg,
// OverTLSPublicKeyResponse. The legacy key is that of a protocol before Noise, which
// isn't spoken: zero.
func (f *front) serveKey(w *reply, v string) {
	version, err := strconv.ParseUint(v, 10, 32)
	switch {
	case err != nil || len(v) > 5:
		w.say(http.StatusBadRequest, "v is the client's capability version")
		return
	case version < oldestClient:
		w.say(http.StatusBadRequest, "this client is too old")
		return
	}
	var public, legacy machineKey
	copy(public[:], f.key.Public)
	body, err := json.Marshal(struct {
		Legacy string `json:"legacyPublicKey"`
		Public string `json:"publicKey"`
	}{legacy.String(), public.String()})
	if err != nil {
		w.say(http.StatusInternalServerError, "no key")
		return
	}
	w.tell(answer{http.StatusOK, "application/json", body})
}
