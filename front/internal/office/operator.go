package office

import (
	"context"
	"encoding/binary"
	"encoding/json"
	"fmt"
	"io"
	"net/http"
	"strings"
)

// Token is that of the operator.
const Token = "secret"

// An Operator asks a server at an address, without a front.
type Operator string

func (o Operator) send(ctx context.Context, method, path, header, value, body string) (int, []byte, error) {
	r, err := http.NewRequestWithContext(ctx, method, "http://"+string(o)+path, strings.NewReader(body))
	if err != nil {
		return 0, nil, err
	}
	r.Header.Set(header, value)
	r.Close = true
	a, err := (&http.Transport{DisableKeepAlives: true, DisableCompression: true}).RoundTrip(r)
	if err != nil {
		return 0, nil, err
	}
	defer a.Body.Close()
	b, err := io.ReadAll(a.Body)
	return a.StatusCode, b, err
}

// Ask is an operator's request, which has to be answered 200.
func (o Operator) Ask(ctx context.Context, method, path, body string) (string, error) {
	status, b, err := o.send(ctx, method, path, "Authorization", "Bearer "+Token, body)
	if err == nil && status != 200 {
		err = fmt.Errorf("%s %s: %d %s", method, path, status, b)
	}
	return string(b), err
}

// Key makes a user's reusable pre-auth key.
func (o Operator) Key(ctx context.Context, login string) (string, error) {
	text, err := o.Ask(ctx, "POST", "/api/v1/preauthkey", fmt.Sprintf(`{"user":%q,"reusable":true}`, login))
	if err != nil {
		return "", err
	}
	var key struct{ Key string }
	err = json.Unmarshal([]byte(text), &key)
	return key.Key, err
}

// Plain is a machine's request to the server itself, which has to be answered 200.
func (o Operator) Plain(ctx context.Context, m *Machine, path, members string) error {
	status, b, err := o.send(ctx, "POST", path, "Ts-Machine-Key", "mkey:"+m.Key.Public().Hex(), m.body(members))
	if err == nil && status != 200 {
		err = fmt.Errorf("%s %s: %d %s", path, members, status, b)
	}
	return err
}

// Send is a machine's request to the server itself, with a body as it is.
func (o Operator) Send(ctx context.Context, m *Machine, path, body string) (int, string, error) {
	status, b, err := o.send(ctx, "POST", path, "Ts-Machine-Key", "mkey:"+m.Key.Public().Hex(), body)
	return status, string(b), err
}

// Map is what the server answers a machine's plain request for its whole map.
func (o Operator) Map(ctx context.Context, m *Machine) (string, error) {
	status, b, err := o.send(ctx, "POST", "/machine/map", "Ts-Machine-Key", "mkey:"+m.Key.Public().Hex(), m.body(`"ReadOnly":true`))
	if err != nil {
		return "", err
	}
	if status != 200 || len(b) < 4 || int(binary.LittleEndian.Uint32(b)) != len(b)-4 {
		return "", fmt.Errorf("a plain map: %d %.200s", status, b)
	}
	return string(b[4:]), nil
}
