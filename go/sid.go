//go:build cgo

package sdtool

import "fmt"

// A SID. Two are equal exactly if == says so. The zero SID is none.
type SID struct {
	bytes string
}

// ParseSID gives the SID of a text: an alias such as BA, or S-1- and numbers.
func ParseSID(text string) (SID, error) {
	return ParseSIDIn(text, SID{})
}

// ParseSIDIn reads aliases of a domain too, such as DA.
func ParseSIDIn(text string, domain SID) (SID, error) {
	bytes, told := sidFromText(text, domain.bytes)
	return SID{bytes}, fault(told)
}

// SIDFromBytes gives the SID of bytes that are one SID.
func SIDFromBytes(bytes []byte) (SID, error) {
	held := string(bytes)
	if held == "" || sidSize(held) != len(held) {
		return SID{}, argumentFault(argumentSID)
	}
	return SID{held}, nil
}

// IsZero says whether it is none.
func (s SID) IsZero() bool {
	return s.bytes == ""
}

// Bytes is its binary form.
func (s SID) Bytes() []byte {
	return []byte(s.bytes)
}

// String is its text without aliases.
func (s SID) String() string {
	text, _ := sidToText(s.bytes, "", true)
	return text
}

// Alias is the two letters that SDDL has for it, also of a domain that is not zero; empty if there are none.
func (s SID) Alias(domain SID) string {
	text, told := sidToText(s.bytes, domain.bytes, false)
	if told != nil || text == s.String() {
		return ""
	}
	return text
}

// MarshalText gives its text; that of the zero SID is empty.
func (s SID) MarshalText() ([]byte, error) {
	return []byte(s.String()), nil
}

func (s *SID) UnmarshalText(text []byte) error {
	if len(text) == 0 {
		*s = SID{}
		return nil
	}
	found, err := ParseSID(string(text))
	if err == nil {
		*s = found
	}
	return err
}

const guidSize = 16

// A GUID. Two are equal exactly if == says so. The zero GUID is none, unlike one of 16 zeros.
type GUID struct {
	bytes string
}

// GUIDFromBytes gives the GUID of 16 bytes as they stand in an ACE.
func GUIDFromBytes(bytes [guidSize]byte) GUID {
	return GUID{string(bytes[:])}
}

// ParseGUID gives the GUID of 36 characters.
func ParseGUID(text string) (GUID, error) {
	bytes, told := guidFromText(text)
	return GUID{bytes}, fault(told)
}

// IsZero says whether it is none.
func (g GUID) IsZero() bool {
	return g.bytes == ""
}

// Bytes is the 16 bytes of a GUID that is not zero.
func (g GUID) Bytes() []byte {
	return []byte(g.bytes)
}

func (g GUID) String() string {
	if g.IsZero() {
		return ""
	}
	return guidToText(g.bytes)
}

// MarshalText gives its text; that of the zero GUID is empty.
func (g GUID) MarshalText() ([]byte, error) {
	return []byte(g.String()), nil
}

func (g *GUID) UnmarshalText(text []byte) error {
	if len(text) == 0 {
		*g = GUID{}
		return nil
	}
	found, err := ParseGUID(string(text))
	if err == nil {
		*g = found
	}
	return err
}

// An ACE is an entry of an ACL. The GUIDs are zero where it has none.
type ACE struct {
	Kind                Kind
	Flags               uint8
	Mask                uint32
	SID                 SID
	ObjectType          GUID
	InheritedObjectType GUID
}

// ParseACE gives the ACE of a text in parentheses, such as (A;OICI;FR;;;BU).
func ParseACE(text string) (ACE, error) {
	return ParseACEIn(text, SID{})
}

// ParseACEIn reads aliases of a domain too.
func ParseACEIn(text string, domain SID) (ACE, error) {
	bytes, told := aceFromText(text, domain.bytes)
	if told != nil {
		return ACE{}, faultOfACE(told, text, domain.bytes)
	}
	return aceRead(bytes), nil
}

// SDDL is its text, with aliases of a domain that is not zero. There is none of an ACE that can't be.
func (a ACE) SDDL(domain SID, numeric bool) (string, error) {
	built, told := build(&Parts{DACL: NewACL(a)})
	if told != nil {
		return "", fault(told)
	}
	text, told := aceToText(bytesOfACE(built), domain.bytes, numeric)
	return text, fault(told)
}

func (a ACE) String() string {
	text, err := a.SDDL(SID{}, false)
	if err != nil {
		return fmt.Sprintf("(no ACE: %v)", err)
	}
	return text
}

// MarshalText gives its text without aliases.
func (a ACE) MarshalText() ([]byte, error) {
	text, err := a.SDDL(SID{}, true)
	return []byte(text), err
}

func (a *ACE) UnmarshalText(text []byte) error {
	found, err := ParseACE(string(text))
	if err == nil {
		*a = found
	}
	return err
}

// An ACL of a descriptor, which does not change. The zero ACL is absent.
type ACL struct {
	state ACLState
	aces  []ACE
}

// NewACL is a list of ACEs.
func NewACL(aces ...ACE) ACL {
	return ACL{List, append([]ACE(nil), aces...)}
}

// NullACL is the ACL that is null.
func NullACL() ACL {
	return ACL{state: Null}
}

func (a ACL) State() ACLState {
	return a.state
}

// Len is how many ACEs it has.
func (a ACL) Len() int {
	return len(a.aces)
}

func (a ACL) At(index int) ACE {
	return a.aces[index]
}

// ACEs is a copy of its ACEs.
func (a ACL) ACEs() []ACE {
	return append([]ACE(nil), a.aces...)
}

// ParseRights gives the access mask that rights mean in SDDL, such as FRWD or 0x1f01ff.
func ParseRights(text string) (uint32, error) {
	return rightsFromText(text)
}

// FormatRights gives the rights of an ACE in SDDL: those of a mandatory label, or those of any other ACE.
func FormatRights(mask uint32, label bool) string {
	return rightsToText(mask, label)
}

// ParseFlags gives the flags of an ACE that a text means in SDDL, such as OICI.
func ParseFlags(text string) (uint8, error) {
	flags, err := flagsFromText(text)
	return uint8(flags), err
}

// FormatFlags gives the flags of an ACE in SDDL. 0x20 is no flag.
func FormatFlags(flags uint8) (string, error) {
	text, told := flagsToText(uint32(flags))
	return text, fault(told)
}
