package main

import (
	"io"
	"net/http"
	"strings"
	"testing"
	"time"
)

func TestInside(t *testing.T) {
	stub := http.NewServeMux()
	stub.HandleFunc("/machine/map", func(w http.ResponseWriter, r *http.Request) {
		b, _ := io.ReadAll(r.Body)
		switch {
		case strings.Contains(string(b), "refuse"):
			w.Header().Set("Content-Type", "application/json")
			w.WriteHeader(401)
			io.WriteString(w, `{"error":"NotLive"}`)
		case strings.Contains(string(b), "empty"):
		default:
			w.Write(frameOf(string(b)))
		}
	})
	r := newRig(t, stub, nil)
	h := r.http(t, fill(1))
	for _, row := range []struct {
		method, path, body string
		status             int
		answer             string
	}{
		{"POST", "/machine/map", `{"A":1}`, 200, string(frameOf(`{"A":1}`))},
		{"POST", "/machine/map", `{"MapSessionSeq":18446744073709551615,"Compress":""}`, 200, string(frameOf(`{"MapSessionSeq":18446744073709551615}`))},
		{"POST", "/machine/map", `{"empty":1}`, 200, ""},
		{"POST", "/machine/map", `{"refuse":1}`, 401, `{"error":"NotLive"}`},
		{"POST", "/machine/map", `{"Compress":"gzip"}`, 400, "Compress is neither zstd nor empty\n"},
		{"POST", "/machine/map", strings.Repeat(" ", 1<<20-2) + "{}", 200, string(frameOf(strings.Repeat(" ", 1<<20-2) + "{}"))},
		{"POST", "/machine/map", strings.Repeat(" ", 1<<20-1) + "{}", 413, "the body is too long\n"},
		{"GET", "/machine/map", "", 405, "POST alone\n"},
		{"POST", "/machine/update-health", "{}", 200, "{}"},
		{"GET", "/machine/update-health", "", 405, "POST alone\n"},
		{"POST", "/machine/set-dns", "{}", 404, "no such path\n"},
		{"POST", "/machine/audit-log", "{}", 404, "no such path\n"},
		{"POST", "/machine/feature/query", "{}", 404, "no such path\n"},
		{"GET", "/machine/webclient/x", "", 404, "no such path\n"},
		{"GET", "/api/v1/node", "", 404, "no such path\n"},
		{"GET", "/key?v=1", "", 404, "no such path\n"},
		{"POST", "/machine/map/", "{}", 404, "no such path\n"},
	} {
		request, err := http.NewRequest(row.method, "https://x"+row.path, strings.NewReader(row.body))
		if err != nil {
			t.Fatal(err)
		}
		answer, err := h.RoundTrip(request)
		if err != nil {
			t.Fatalf("%s: %v", row.path, err)
		}
		got := whole(t, answer)
		answer.Body.Close()
		if answer.StatusCode != row.status || got != row.answer {
			t.Errorf("%s %s %.60s: %d %.80q", row.method, row.path, row.body, answer.StatusCode, got)
		}
		if allow := answer.Header.Get("Allow"); (allow == "POST") != (row.status == 405) {
			t.Errorf("%s %s: Allow %q", row.method, row.path, allow)
		}
	}
	if got := r.bodies.in.Load(); got != 0 {
		t.Errorf("%d bytes of bodies are held", got)
	}
}

// A conversation as a client has it: the key, a registration, a poll that stays
// and is compressed, and an update beside it.
func TestConversation(t *testing.T) {
	more := make(chan string)
	stub := http.NewServeMux()
	stub.HandleFunc("/machine/register", func(w http.ResponseWriter, r *http.Request) {
		io.WriteString(w, `{"AuthURL":"","MachineAuthorized":true}`)
	})
	stub.HandleFunc("/machine/map", func(w http.ResponseWriter, r *http.Request) {
		b, _ := io.ReadAll(r.Body)
		switch {
		case strings.Contains(string(b), "Compress"):
			t.Errorf("%s was handed on", b)
		case strings.Contains(string(b), `"ReadOnly":true`):
			w.Write(frameOf(`{"Seq":0}`))
			return
		case !strings.Contains(string(b), `"Stream":true`):
			return
		}
		w.(http.Flusher).Flush()
		for {
			select {
			case <-r.Context().Done():
				return
			case x, isMore := <-more:
				if !isMore {
					return
				}
				w.Write(frameOf(x))
				w.(http.Flusher).Flush()
			}
		}
	})
	r := newRig(t, stub, nil)
	r.dialer.Server = nil // ask for it
	r.derpMap = []byte(`{"Regions":{"1":{}}}`)
	h := r.http(t, fill(1))
	if got := whole(t, post(t, h, "/machine/register", `{"NodeKey":"n"}`)); got != `{"AuthURL":"","MachineAuthorized":true}` {
		t.Error(got)
	}
	poll := post(t, h, "/machine/map", `{"Stream":true,"Compress":"zstd"}`)
	big := `{"Peers":["` + strings.Repeat("peer", 300000) + `"]}`
	for _, row := range [][2]string{
		{`{"Seq":1}`, `{"DERPMap":{"Regions":{"1":{}}},"Seq":1}`}, {`{"Seq":2}`, `{"Seq":2}`}, {big, big},
	} {
		select {
		case more <- row[0]:
		case <-time.After(5 * time.Second):
			t.Fatal("the poll takes nothing more")
		}
		if got := next(t, poll.Body, true); got != row[1] {
			t.Errorf("%.80s", got)
		}
		if got := post(t, h, "/machine/map", `{"OmitPeers":true}`); got.StatusCode != 200 || whole(t, got) != "" {
			t.Error(got.Status)
		}
		if got := next(t, post(t, h, "/machine/map", `{"Compress":"zstd","ReadOnly":true}`).Body, true); got != `{"Seq":0}` {
			t.Error(got)
		}
	}
	close(more)
	if rest := whole(t, poll); rest != "" {
		t.Errorf("%q", rest)
	}
}

func TestIdleConnection(t *testing.T) {
	stub, _ := gone(t)
	r := newRig(t, stub, func(l *limits) { l.idle, l.handshake = 150*time.Millisecond, 500*time.Millisecond })
	h := r.http(t, fill(1))
	poll := post(t, h, "/machine/map", `{"Stream":true}`)
	next(t, poll.Body, false)
	time.Sleep(800 * time.Millisecond)
	if st := h.State(); st.Closed || st.Closing {
		t.Fatal("closed beside a stream")
	}
	poll.Body.Close()
	for end := time.Now().Add(5 * time.Second); !h.State().Closed; time.Sleep(10 * time.Millisecond) {
		if time.Now().After(end) {
			t.Fatal("still open")
		}
	}
}
