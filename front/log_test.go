package main

import (
	"io"
	"net/http"
	"strings"
	"testing"
)

func TestLogHasNoSecret(t *testing.T) {
	r := newRig(t, http.HandlerFunc(func(w http.ResponseWriter, r *http.Request) { io.WriteString(w, `{"AuthURL":""}`) }), nil)
	h := r.http(t, fill(1))
	post(t, h, "/machine/register?q=tskey", `{"Auth":{"AuthKey":"tskey"}}`)
	soon(t, "a line", func() bool { return strings.Contains(r.lines.String(), "/machine/register") })
	got := r.lines.String()
	short := machineKey(fill(1).Public()).Short()
	if strings.Contains(got, "tskey") || strings.Contains(got, machineKey(fill(1).Public()).String()[5:20]) || !strings.Contains(got, ` 127.0.0.1 `+short+` "POST" "/machine/register" 200 `) {
		t.Error(got)
	}
}
