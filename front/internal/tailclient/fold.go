package tailclient

import (
	"bytes"
	"encoding/json"
	"fmt"
	"sort"
	"strings"
)

// A View is what a client has made of the frames of its poll: tailcfg, MapResponse.
// What it keeps is text as it came, so that it can be compared byte for byte.
type View struct {
	DERPMap json.RawMessage
	Frames  int // that were folded

	dns, domain, node, filter json.RawMessage
	peers, profiles           map[int64]object
}

// An object is the members of a JSON object, in their order.
type object []member

type member struct {
	name  string
	value json.RawMessage
}

func objectOf(text []byte) (object, error) {
	d := json.NewDecoder(bytes.NewReader(text))
	if open, err := d.Token(); err != nil || open != json.Delim('{') {
		return nil, fmt.Errorf("no object: %.80s", text)
	}
	var o object
	for d.More() {
		name, err := d.Token()
		if err != nil {
			return nil, err
		}
		m := member{name: name.(string)}
		if err := d.Decode(&m.value); err != nil {
			return nil, err
		}
		o = append(o, m)
	}
	_, err := d.Token()
	return o, err
}

func (o object) String() string {
	var b strings.Builder
	for n, m := range o {
		fmt.Fprintf(&b, "%s%q:%s", map[bool]string{true: "{", false: ","}[n == 0], m.name, m.value)
	}
	return b.String() + "}"
}

func (o object) number(name string) int64 {
	var n int64
	for _, m := range o {
		if m.name == name && json.Unmarshal(m.value, &n) != nil {
			return 0
		}
	}
	return n
}

func (o object) set(name string, value json.RawMessage) {
	for n := range o {
		if o[n].name == name {
			o[n].value = value
		}
	}
}

// Fold takes a frame. A member that isn't known is a fault: nothing may be lost.
func (v *View) Fold(frame []byte) error {
	o, err := objectOf(frame)
	if err != nil {
		return err
	}
	if begins(o) {
		*v = View{DERPMap: v.DERPMap, Frames: v.Frames, peers: map[int64]object{}, profiles: map[int64]object{}}
	}
	for _, m := range o {
		if err := v.take(m); err != nil {
			return fmt.Errorf("%s: %w", m.name, err)
		}
	}
	v.dropProfiles()
	v.Frames++
	return nil
}

// begins says whether a frame is a whole map: a handle with a node.
func begins(o object) bool {
	var handle, node bool
	for _, m := range o {
		handle = handle || m.name == "MapSessionHandle"
		node = node || m.name == "Node"
	}
	return handle && node
}

func (v *View) take(m member) error {
	switch m.name {
	case "MapSessionHandle", "Seq", "KeepAlive":
		return nil
	case "DERPMap":
		v.DERPMap = m.value
	case "DNSConfig":
		v.dns = m.value
	case "Domain":
		v.domain = m.value
	case "Node":
		v.node = m.value
	case "PacketFilter":
		v.filter = m.value
	case "Peers", "PeersChanged":
		return put(v.peers, m.value)
	case "UserProfiles":
		return put(v.profiles, m.value)
	case "PeersRemoved":
		var ids []int64
		if err := json.Unmarshal(m.value, &ids); err != nil {
			return err
		}
		for _, id := range ids {
			delete(v.peers, id)
		}
	case "PeersChangedPatch":
		return v.patch(m.value)
	default:
		return fmt.Errorf("isn't known")
	}
	return nil
}

func put(to map[int64]object, list []byte) error {
	var rows []json.RawMessage
	if err := json.Unmarshal(list, &rows); err != nil {
		return err
	}
	for _, row := range rows {
		o, err := objectOf(row)
		if err != nil {
			return err
		}
		to[o.number("ID")] = o
	}
	return nil
}

// patch is tailcfg's PeerChange.
func (v *View) patch(list []byte) error {
	var rows []json.RawMessage
	if err := json.Unmarshal(list, &rows); err != nil {
		return err
	}
	for _, row := range rows {
		o, err := objectOf(row)
		if err != nil {
			return err
		}
		peer := v.peers[o.number("NodeID")]
		if peer == nil {
			return fmt.Errorf("no peer %d", o.number("NodeID"))
		}
		for _, m := range o {
			name := m.name
			if name == "DERPRegion" {
				name = "HomeDERP"
			}
			peer.set(name, m.value)
		}
	}
	return nil
}

// dropProfiles forgets users of whom no machine is seen any more.
func (v *View) dropProfiles() {
	owners := map[int64]bool{}
	if node, err := objectOf(v.node); err == nil {
		owners[node.number("User")] = true
	}
	for _, peer := range v.peers {
		owners[peer.number("User")] = true
	}
	for id := range v.profiles {
		if !owners[id] {
			delete(v.profiles, id)
		}
	}
}

// String is the view as the server writes a whole map.
func (v *View) String() string {
	list := func(rows map[int64]object) string {
		ids := make([]int64, 0, len(rows))
		for id := range rows {
			ids = append(ids, id)
		}
		sort.Slice(ids, func(i, j int) bool { return ids[i] < ids[j] })
		texts := make([]string, len(ids))
		for n, id := range ids {
			texts[n] = rows[id].String()
		}
		return "[" + strings.Join(texts, ",") + "]"
	}
	peers := ""
	if len(v.peers) > 0 {
		peers = `,"Peers":` + list(v.peers)
	}
	return fmt.Sprintf(`{"DNSConfig":%s,"Domain":%s,"Node":%s,"PacketFilter":%s%s,"UserProfiles":%s}`, v.dns, v.domain, v.node, v.filter, peers, list(v.profiles))
}
