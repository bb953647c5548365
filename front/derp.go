package main

import (
	"bytes"
	"encoding/json"
	"errors"
	"os"
)

// readDERPMap reads the file of --derp-map, a tailcfg.DERPMap, as compact JSON.
func readDERPMap(path string) ([]byte, error) {
	text, err := os.ReadFile(path)
	if err != nil {
		return nil, &fault{"DERP map", path, err, "name a file that the user of the front may read"}
	}
	compact, err := compactDERPMap(text)
	if err != nil {
		return nil, &fault{"DERP map", path, err, "give it the form of a tailcfg.DERPMap"}
	}
	return compact, nil
}

func compactDERPMap(text []byte) ([]byte, error) {
	var m struct{ Regions map[int]json.RawMessage }
	if err := json.Unmarshal(text, &m); err != nil {
		return nil, err
	}
	if len(m.Regions) == 0 {
		return nil, errors.New("it has no Regions")
	}
	var b bytes.Buffer
	if err := json.Compact(&b, text); err != nil {
		return nil, err
	}
	return b.Bytes(), nil
}
