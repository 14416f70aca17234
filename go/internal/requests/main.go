// Command requests answers requests from standard input, one a line: words, of which bytes are in hex, and "-" is none.
// tests/library compares the answers with those of the library. "time DESCRIPTOR SID" measures checks and empty calls.
package main

import (
	"bufio"
	"encoding/binary"
	"encoding/hex"
	"errors"
	"fmt"
	"os"
	"strconv"
	"strings"
	"sync"
	"time"

	"zaptirony.example/sdtool"
)

func ofBytes(bytes []byte) string {
	if len(bytes) == 0 {
		return "-"
	}
	return hex.EncodeToString(bytes)
}

func ofNumber(number int) string {
	if number == sdtool.NoACE {
		return "-"
	}
	return strconv.Itoa(number)
}

func ofFlag(flag bool) int {
	if flag {
		return 1
	}
	return 0
}

// A reader takes the words of a request one after the other, up to the first fault.
type reader struct {
	words []string
	fault error
}

func (r *reader) word() string {
	word := r.words[0]
	r.words = r.words[1:]
	return word
}

func (r *reader) number() uint32 {
	number, err := strconv.ParseUint(r.word(), 10, 32)
	if err != nil {
		panic(err)
	}
	return uint32(number)
}

func (r *reader) flag() bool {
	return r.number() == 1
}

func (r *reader) bytes() []byte {
	word := r.word()
	if word == "-" {
		return nil
	}
	bytes, err := hex.DecodeString(word)
	if err != nil {
		panic(err)
	}
	return bytes
}

func (r *reader) column() sdtool.Column {
	column := sdtool.Column{Data: r.bytes()}
	for ends := r.bytes(); len(ends) > 0; ends = ends[8:] {
		column.Offsets = append(column.Offsets, int64(binary.LittleEndian.Uint64(ends)))
	}
	return column
}

func (r *reader) text() string {
	return string(r.bytes())
}

func (r *reader) keep(err error) {
	if r.fault == nil {
		r.fault = err
	}
}

func (r *reader) sid() sdtool.SID {
	sid, err := sdtool.SIDFromBytes(r.bytes())
	r.keep(err)
	return sid
}

func (r *reader) sidOrNone() sdtool.SID {
	bytes := r.bytes()
	if len(bytes) == 0 {
		return sdtool.SID{}
	}
	sid, err := sdtool.SIDFromBytes(bytes)
	r.keep(err)
	return sid
}

func (r *reader) guid() sdtool.GUID {
	bytes := r.bytes()
	if len(bytes) == 0 {
		return sdtool.GUID{}
	}
	return sdtool.GUIDFromBytes(*(*[16]byte)(bytes))
}

func (r *reader) ace() sdtool.ACE {
	return sdtool.ACE{
		Kind: sdtool.Kind(r.number()), Flags: uint8(r.number()), Mask: r.number(), SID: r.sid(), ObjectType: r.guid(),
		InheritedObjectType: r.guid(),
	}
}

func (r *reader) acl() sdtool.ACL {
	word := r.word()
	switch word {
	case "absent":
		return sdtool.ACL{}
	case "null":
		return sdtool.NullACL()
	}
	count, _ := strconv.Atoi(word)
	aces := make([]sdtool.ACE, count)
	for index := range aces {
		aces[index] = r.ace()
	}
	return sdtool.NewACL(aces...)
}

func (r *reader) descriptor() sdtool.Descriptor {
	descriptor, err := sdtool.FromBytes(r.bytes())
	r.keep(err)
	return descriptor
}

func (r *reader) token() *sdtool.Token {
	var lists [2][]sdtool.SID
	for which := range lists {
		for count := r.number(); count > 0; count-- {
			lists[which] = append(lists[which], r.sid())
		}
	}
	token, err := sdtool.NewToken(lists[0], lists[1])
	r.keep(err)
	options := r.number()
	if err != nil {
		token, _ = sdtool.NewToken(nil, nil)
	}
	if options&1 != 0 {
		token = token.WithLevel(r.number())
	}
	if options&2 != 0 {
		token = token.WithSecurity()
	}
	if options&4 != 0 {
		token = token.WithTakeOwnership()
	}
	return token
}

func (r *reader) request() sdtool.Request {
	return sdtool.Request{
		Mapping: sdtool.Mapping(r.number()), Maximum: r.flag(), ObjectType: r.guid(), PrincipalSelf: r.sidOrNone(),
		Wanted: r.number(),
	}
}

func (r *reader) creation() sdtool.Creation {
	made := sdtool.Creation{
		Kind: sdtool.NewKind(r.number()), Mapping: sdtool.Mapping(r.number()), Owner: r.sid(), Group: r.sid(),
	}
	if creator := r.bytes(); len(creator) > 0 {
		found, err := sdtool.FromBytes(creator)
		r.keep(err)
		made.Creator = found
	}
	return made
}

func (r *reader) match() sdtool.Match {
	match := sdtool.Match{Flags: uint8(r.number()), FlagsMask: uint8(r.number()), SID: r.sidOrNone()}
	if match.HasKind = r.flag(); match.HasKind {
		match.Kind = sdtool.Kind(r.number())
	}
	if match.HasMask = r.flag(); match.HasMask {
		match.Mask = r.number()
	}
	match.ObjectType, match.NoObjectType = r.types()
	match.InheritedObjectType, match.NoInheritedObjectType = r.types()
	return match
}

func (r *reader) types() (guid sdtool.GUID, none bool) {
	switch r.word() {
	case "any":
		return guid, false
	case "none":
		return guid, true
	}
	return r.guid(), false
}

func (r *reader) change() sdtool.Change {
	kind, acl := r.word(), sdtool.OfDACL
	if r.word() == "S" {
		acl = sdtool.OfSACL
	}
	switch kind {
	case "put":
		return sdtool.PutACE(acl, sdtool.PutPlace(r.number()), r.ace())
	case "take":
		return sdtool.TakeACE(acl, r.number())
	case "replace":
		return sdtool.ReplaceACE(acl, r.number(), r.ace())
	case "take-each":
		return sdtool.TakeEach(acl, r.match())
	case "set-each":
		return sdtool.SetEach(acl, r.match(), sdtool.Setting{
			SID: r.sidOrNone(), SetMask: r.number(), ClearMask: r.number(), SetFlags: uint8(r.number()),
			ClearFlags: uint8(r.number()),
		})
	case "order":
		return sdtool.OrderACEs(acl)
	case "state":
		return sdtool.SetState(acl, sdtool.ACLState(r.number()))
	case "owner":
		return sdtool.SetOwner(r.sidOrNone())
	case "group":
		return sdtool.SetGroup(r.sidOrNone())
	case "control":
		return sdtool.SetControl(uint16(r.number()), uint16(r.number()))
	}
	panic("there is no change " + kind)
}

func ofACE(ace sdtool.ACE) string {
	return fmt.Sprintf("%d,%d,%d,%s,%s,%s", ace.Kind, ace.Flags, ace.Mask, ofBytes(ace.SID.Bytes()),
		ofBytes(ace.ObjectType.Bytes()), ofBytes(ace.InheritedObjectType.Bytes()))
}

func ofACL(acl sdtool.ACL) string {
	switch acl.State() {
	case sdtool.Absent:
		return "absent"
	case sdtool.Null:
		return "null"
	}
	var aces []string
	for _, ace := range acl.ACEs() {
		aces = append(aces, ofACE(ace))
	}
	return "[" + strings.Join(aces, ";") + "]"
}

func ofAnswers(answers []sdtool.Answer) string {
	var said []string
	for _, answer := range answers {
		if answer.Err != nil {
			said = append(said, ofFault(answer.Err))
		} else {
			said = append(said, ofVerdict(answer.Verdict))
		}
	}
	return strings.Join(said, " | ")
}

func ofColumn(made sdtool.Column, faults map[int]error) string {
	var said []string
	for row := 0; row+1 < len(made.Offsets); row++ {
		answer := ofBytes(made.Data[made.Offsets[row]:made.Offsets[row+1]])
		if faults[row] != nil {
			answer = ofFault(faults[row]) + strings.TrimPrefix(answer, "-")
		}
		said = append(said, answer)
	}
	return strings.Join(said, " | ")
}

func ofVerdict(verdict sdtool.Verdict) string {
	return fmt.Sprintf("%d %d", ofFlag(verdict.Granted), verdict.Mask)
}

func ofFault(err error) string {
	var fault *sdtool.Fault
	if !errors.As(err, &fault) {
		return "no fault: " + err.Error()
	}
	place := "-"
	if at := fault.Place; at != nil {
		place = fmt.Sprintf("%d,%s,%d,%d,%d", at.Part, ofNumber(at.ACE), at.Field, at.Offset, at.Size)
	}
	return fmt.Sprintf("! %d %s %d %d %d %d %s %v", fault.Number, fault.Name, fault.Part, fault.OtherPart, fault.Argument,
		fault.Entry, place, err)
}

func ofOrigins(origins []sdtool.Origin) string {
	var all []string
	for _, origin := range origins {
		all = append(all, fmt.Sprintf("%d,%d,%d", origin.Place, ofFlag(origin.FromCreator), ofFlag(origin.InheritOnly)))
	}
	return "[" + strings.Join(all, ";") + "]"
}

var conversions = map[string]sdtool.Conversion{
	"to-sddl": sdtool.ToSDDL, "from-sddl": sdtool.FromSDDL, "normalize": sdtool.Normalize,
}

// answered is the answer to a job. A fault of its words comes first.
func answered(job string, r *reader) (string, error) {
	switch job {
	case "version":
		return fmt.Sprintf("%s %d", sdtool.Version(), sdtool.VersionNumber()), nil
	case "bytes":
		return ofBytes(r.descriptor().Bytes()), nil
	case "sddl":
		text, domain := r.text(), r.sidOrNone()
		if r.fault != nil {
			return "", nil
		}
		found, err := sdtool.ParseIn(text, domain)
		return ofBytes(found.Bytes()), err
	case "to-sddl":
		domain, numeric := r.sidOrNone(), r.flag()
		return r.descriptor().SDDL(domain, numeric), nil
	case "explain":
		domain, numeric := r.sidOrNone(), r.flag()
		return ofBytes([]byte(r.descriptor().Explain(domain, numeric))), nil
	case "sid":
		sid, domain := r.sid(), r.sidOrNone()
		alias := sid.Alias(domain)
		if alias == "" {
			alias = "-"
		}
		return fmt.Sprintf("%v %s", sid, alias), nil
	case "sid-text":
		text, domain := r.text(), r.sidOrNone()
		if r.fault != nil {
			return "", nil
		}
		sid, err := sdtool.ParseSIDIn(text, domain)
		return ofBytes(sid.Bytes()), err
	case "guid":
		return r.guid().String(), nil
	case "guid-text":
		guid, err := sdtool.ParseGUID(r.text())
		return ofBytes(guid.Bytes()), err
	case "rights":
		mask, err := sdtool.ParseRights(r.text())
		return fmt.Sprint(mask), err
	case "rights-text":
		mask, label := r.number(), r.flag()
		return ofBytes([]byte(sdtool.FormatRights(mask, label))), nil
	case "flags":
		flags, err := sdtool.ParseFlags(r.text())
		return fmt.Sprint(flags), err
	case "flags-text":
		text, err := sdtool.FormatFlags(uint8(r.number()))
		return ofBytes([]byte(text)), err
	case "ace-text":
		text, domain := r.text(), r.sidOrNone()
		if r.fault != nil {
			return "", nil
		}
		ace, err := sdtool.ParseACEIn(text, domain)
		return ofACE(ace), err
	case "ace":
		domain, numeric := r.sidOrNone(), r.flag()
		ace := r.ace()
		if r.fault != nil {
			return "", nil
		}
		return ace.SDDL(domain, numeric)
	case "parts":
		descriptor := r.descriptor()
		if r.fault != nil {
			return "", nil
		}
		parts := descriptor.Parts()
		return fmt.Sprintf("%s %s %s %s %d %d", ofBytes(parts.Owner.Bytes()), ofBytes(parts.Group.Bytes()),
			ofACL(parts.SACL), ofACL(parts.DACL), parts.Control, parts.ResourceManager), nil
	case "build":
		parts := sdtool.Parts{Control: uint16(r.number()), ResourceManager: uint8(r.number()), Owner: r.sidOrNone(),
			Group: r.sidOrNone(), SACL: r.acl(), DACL: r.acl()}
		if r.fault != nil {
			return "", nil
		}
		descriptor, err := sdtool.Build(parts)
		return ofBytes(descriptor.Bytes()), err
	case "check":
		token, request := r.token(), r.request()
		verdict, err := token.Checker(request).CheckBytes(r.bytes())
		return ofVerdict(verdict), err
	case "check-many":
		token, request := r.token(), r.request()
		all := make([][]byte, r.number())
		for index := range all {
			all[index] = r.bytes()
		}
		answers, err := token.Checker(request).CheckMany(all)
		return ofAnswers(answers), err
	case "check-column":
		token, request, column := r.token(), r.request(), r.column()
		answers, err := token.Checker(request).CheckColumn(column)
		return ofAnswers(answers), err
	case "convert-many":
		kind, numeric := conversions[r.word()], false
		if kind == sdtool.ToSDDL {
			numeric = r.flag()
		}
		domain, column := r.sidOrNone(), r.column()
		if r.fault != nil {
			return "", nil
		}
		made, faults, err := column.Convert(kind, domain, numeric)
		return ofColumn(made, faults), err
	case "reasons":
		token, request := r.token(), r.request()
		descriptor := r.descriptor()
		if r.fault != nil {
			return "", nil
		}
		reasons, err := descriptor.Reasons(token, request)
		var said []string
		for _, reason := range reasons {
			said = append(said, fmt.Sprintf("%d,%s,%d", reason.Kind, ofNumber(reason.Place), ofFlag(reason.Grants())))
		}
		return strings.Join(said, " "), err
	case "derive":
		made, parent := r.creation(), r.descriptor()
		if r.fault != nil {
			return "", nil
		}
		descriptor, err := parent.Derive(made)
		return ofBytes(descriptor.Bytes()), err
	case "derive-many":
		made, parents := r.creation(), r.column()
		if r.fault != nil {
			return "", nil
		}
		children, faults, err := parents.Derive(made)
		return ofColumn(children, faults), err
	case "origins":
		made, parent := r.creation(), r.descriptor()
		if r.fault != nil {
			return "", nil
		}
		origins, err := parent.Origins(made)
		return ofOrigins(origins.SACL) + " " + ofOrigins(origins.DACL), err
	case "edit":
		changes := make([]sdtool.Change, r.number())
		for index := range changes {
			changes[index] = r.change()
		}
		descriptor := r.descriptor()
		if r.fault != nil {
			return "", nil
		}
		edited, err := descriptor.Edit(changes...)
		var touched []string
		for _, count := range edited.Touched {
			touched = append(touched, fmt.Sprint(count))
		}
		return ofBytes(edited.Descriptor.Bytes()) + " " + strings.Join(touched, ","), err
	case "order":
		descriptor := r.descriptor()
		if r.fault != nil {
			return "", nil
		}
		order := descriptor.Order()
		return ofNumber(order.SACL) + " " + ofNumber(order.DACL), nil
	case "run":
		words := make([]string, r.number())
		for index := range words {
			words[index] = r.text()
		}
		ending := sdtool.Run(words, r.bytes())
		return fmt.Sprintf("%d %s %s", ending.Status, ofBytes(ending.Output), ofBytes([]byte(ending.Message))), nil
	}
	panic("there is no job " + job)
}

func answer(line string) string {
	words := strings.Fields(line)
	r := &reader{words: words[1:]}
	text, err := answered(words[0], r)
	if r.fault != nil {
		err = r.fault
	}
	if err != nil {
		return ofFault(err)
	}
	return text
}

// measured is the nanoseconds of one call of many.
func measured(call func()) float64 {
	const calls = 2_000
	best := time.Hour
	for round := 0; round < 200; round++ {
		began := time.Now()
		for index := 0; index < calls; index++ {
			call()
		}
		if took := time.Since(began); took < best {
			best = took
		}
	}
	return float64(best.Nanoseconds()) / calls
}

func measure(r *reader) {
	descriptor := r.descriptor()
	token, err := sdtool.NewToken([]sdtool.SID{r.sid()}, nil)
	r.keep(err)
	if r.fault != nil {
		panic(r.fault)
	}
	checker := token.Checker(sdtool.Request{Wanted: 0x120089})
	check := measured(func() {
		if verdict, err := checker.Check(descriptor); err != nil || !verdict.Granted {
			panic("not granted")
		}
	})
	fmt.Println(check, measured(func() { sdtool.VersionNumber() }))
}

func main() {
	if len(os.Args) == 4 && os.Args[1] == "time" {
		measure(&reader{words: os.Args[2:]})
		return
	}
	var lines []string
	input := bufio.NewScanner(os.Stdin)
	input.Buffer(nil, 1<<26)
	for input.Scan() {
		lines = append(lines, input.Text())
	}
	count := 1
	if len(os.Args) > 1 {
		count, _ = strconv.Atoi(os.Args[1])
	}
	// Each of some goroutines answers all lines, and one says what all have said.
	all := make([][]string, count)
	var running sync.WaitGroup
	for index := range all {
		running.Add(1)
		go func(index int) {
			defer running.Done()
			for _, line := range lines {
				all[index] = append(all[index], answer(line))
			}
		}(index)
	}
	running.Wait()
	output := bufio.NewWriter(os.Stdout)
	defer output.Flush()
	for number, said := range all[0] {
		for _, other := range all {
			if other[number] != said {
				panic("goroutines have said different things")
			}
		}
		fmt.Fprintln(output, said)
	}
}
