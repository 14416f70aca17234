//go:build cgo

// Package sdtool reads, writes, changes and checks Windows security descriptors (MS-DTYP 2.4.6) and SDDL (MS-DTYP 2.5.1).
//
// Each answer comes from libsdtool, whose calls are proved; this package moves bytes to it and back. No value changes, so
// goroutines may share all of them. What has no answer is a *Fault, which means unknown: treat it as denied.
//
// The library and its header are found by CGO_CFLAGS and CGO_LDFLAGS, where they are not installed for the compiler:
//
//	CGO_CFLAGS="$(pkg-config --cflags sdtool)" CGO_LDFLAGS="$(pkg-config --libs-only-L sdtool)" go build
//
// -ldflags '-extldflags -static' links all statically.
package sdtool

import (
	"errors"
	"strings"
)

// A Descriptor is a security descriptor. Two are equal exactly if == says so, which is if their content is. The zero
// Descriptor is none: it has no parts, and each check of it is a Fault.
//
// The empty text of SDDL is a descriptor without parts. One whose DACL is absent or null grants everything, so a caller
// that has no use for those has to ask for the DACL.
type Descriptor struct {
	layout string
}

// Parse gives the descriptor of a text.
func Parse(sddl string) (Descriptor, error) {
	return ParseIn(sddl, SID{})
}

// ParseIn reads aliases of a domain too, such as DA.
func ParseIn(sddl string, domain SID) (Descriptor, error) {
	layout, told := fromSDDL(sddl, domain.bytes)
	return Descriptor{layout}, faultOfSDDL(told, sddl, domain.bytes)
}

// FromBytes gives the descriptor of bytes, in whatever layout.
func FromBytes(bytes []byte) (Descriptor, error) {
	held := string(bytes)
	layout, told := normalize(held)
	return Descriptor{layout}, faultOfBytes(told, held)
}

// Parts is what a descriptor is made of.
type Parts struct {
	Owner SID
	Group SID
	DACL  ACL
	SACL  ACL
	// The bits 0x8000, 0x10 and 0x4 follow from the parts, whatever they are here.
	Control         uint16
	ResourceManager uint8
}

// Build gives the descriptor of parts.
func Build(parts Parts) (Descriptor, error) {
	layout, told := build(&parts)
	return Descriptor{layout}, fault(told)
}

// IsZero says whether it is none.
func (d Descriptor) IsZero() bool {
	return d.layout == ""
}

// Bytes is its canonical layout.
func (d Descriptor) Bytes() []byte {
	return []byte(d.layout)
}

// SDDL is its text, with aliases of a domain that is not zero, or without aliases. SDDL has no text for the resource
// manager byte and for some control bits, which are lost.
func (d Descriptor) SDDL(domain SID, numeric bool) string {
	return toSDDL(d.layout, domain.bytes, numeric)
}

func (d Descriptor) String() string {
	return d.SDDL(SID{}, false)
}

// Explain is its explanation, as "sdtool explain" prints it.
func (d Descriptor) Explain(domain SID, numeric bool) string {
	return explain(d.layout, domain.bytes, numeric)
}

// MarshalText gives its SDDL without aliases. One of which SDDL does not say all is an error.
func (d Descriptor) MarshalText() ([]byte, error) {
	text := d.SDDL(SID{}, true)
	if found, err := Parse(text); err != nil || found != d {
		return nil, errors.New("sdtool: SDDL does not say all of this descriptor")
	}
	return []byte(text), nil
}

func (d *Descriptor) UnmarshalText(text []byte) error {
	found, err := Parse(string(text))
	if err == nil {
		*d = found
	}
	return err
}

// MarshalBinary gives its canonical layout.
func (d Descriptor) MarshalBinary() ([]byte, error) {
	return d.Bytes(), nil
}

func (d *Descriptor) UnmarshalBinary(bytes []byte) error {
	found, err := FromBytes(bytes)
	if err == nil {
		*d = found
	}
	return err
}

// Parts is what it is made of. The zero Descriptor has none, and panics.
func (d Descriptor) Parts() Parts {
	if d.IsZero() {
		panic("sdtool: the zero Descriptor has no parts")
	}
	return partsOf(d.layout)
}

func (d Descriptor) Owner() SID {
	return d.Parts().Owner
}

func (d Descriptor) Group() SID {
	return d.Parts().Group
}

func (d Descriptor) DACL() ACL {
	return d.Parts().DACL
}

func (d Descriptor) SACL() ACL {
	return d.Parts().SACL
}

// Check says whether it grants a token what is asked. Many checks of one token and one request take a Checker.
func (d Descriptor) Check(token *Token, request Request) (Verdict, error) {
	return token.Checker(request).Check(d)
}

// Reasons says why it grants or denies each right, by its place in a mask.
func (d Descriptor) Reasons(token *Token, request Request) ([Rights]Reason, error) {
	return token.Checker(request).Reasons(d)
}

// Creation says who makes a new object, and what it is. Creator is the descriptor that the creator brings, if any.
type Creation struct {
	Owner   SID
	Group   SID
	Kind    NewKind
	Creator Descriptor
	Mapping Mapping
}

// Derive gives the descriptor of a new object in a folder that has this one.
func (d Descriptor) Derive(made Creation) (Descriptor, error) {
	layout, told := derive(d.layout, &made)
	return Descriptor{layout}, fault(told)
}

// An Origin says where an ACE of a derived descriptor comes from: from a place in the ACL of the creator or of the
// folder. With InheritOnly it is the copy for what is made in the new object.
type Origin struct {
	Place       int
	FromCreator bool
	InheritOnly bool
}

// Origins are those of the ACEs of a derived descriptor, in their order.
type Origins struct {
	SACL []Origin
	DACL []Origin
}

// Origins says where each ACE of the descriptor that Derive gives comes from.
func (d Descriptor) Origins(made Creation) (Origins, error) {
	origins, told := deriveOrigins(d.layout, &made)
	return origins, fault(told)
}

// Edit gives the descriptor after changes, made one after the other. The Fault of a change that can't be made has its
// number in Entry.
func (d Descriptor) Edit(changes ...Change) (Edited, error) {
	layout, touched, told := edit(d.layout, changes)
	if told != nil {
		return Edited{}, fault(told)
	}
	return Edited{Descriptor{layout}, touched}, nil
}

// Order is where ACLs get out of order: the place of the first ACE whose rank is below that of the one before, or NoACE.
type Order struct {
	SACL int
	DACL int
}

// Order says where its ACLs get out of order. The zero Descriptor has none, and panics.
func (d Descriptor) Order() Order {
	if d.IsZero() {
		panic("sdtool: the zero Descriptor has no ACLs")
	}
	return orderOf(d.layout)
}

// Version is that of the library.
func Version() string {
	return version()
}

// VersionNumber is 10000 times the first part of the version, 100 times the second, and the third.
func VersionNumber() uint32 {
	return versionNumber()
}

// Ending is how a run of the program ends: its exit status, and what it prints.
type Ending struct {
	Status  uint32
	Output  []byte
	Message string
}

// Run runs the program on an input: one descriptor a line, one answer a line. The words are those of its command line.
func Run(words []string, input []byte) Ending {
	spelled := ""
	for _, word := range words {
		// A word with a NUL would be two. It becomes one that is no text, and the program refuses it.
		if strings.Contains(word, "\x00") {
			word = "\xff"
		}
		spelled += word + "\x00"
	}
	return run(spelled, input)
}
