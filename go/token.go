//go:build cgo

package sdtool

import "strings"

// A Token is who asks: exactly the SIDs of the user, of all groups, and of groups such as Everyone (WD). It does not
// change.
type Token struct {
	sids, entries  string
	read           words
	level, options uint32
}

// NewToken gives a token of SIDs, and of SIDs that count only for ACEs that deny.
func NewToken(sids, onlyDenying []SID) (*Token, error) {
	var all strings.Builder
	entries := make([]byte, 0, len(sids)+len(onlyDenying))
	for index, sid := range append(append([]SID(nil), sids...), onlyDenying...) {
		all.WriteString(sid.bytes)
		entry := byte(0)
		if index >= len(sids) {
			entry = denyOnly
		}
		entries = append(entries, entry)
	}
	read, told := tokenRead(all.String(), string(entries))
	if told != nil {
		return nil, fault(told)
	}
	return &Token{sids: all.String(), entries: string(entries), read: read}, nil
}

func (t *Token) with(options uint32) *Token {
	other := *t
	other.options |= options
	return &other
}

// WithLevel gives the same token with an integrity level, such as 8192 for medium. Without one, no label is looked at.
func (t *Token) WithLevel(level uint32) *Token {
	other := t.with(hasLevel)
	other.level = level
	return other
}

// WithSecurity gives the same token with SeSecurityPrivilege.
func (t *Token) WithSecurity() *Token {
	return t.with(security)
}

// WithTakeOwnership gives the same token with SeTakeOwnershipPrivilege.
func (t *Token) WithTakeOwnership() *Token {
	return t.with(takeOwnership)
}

// A Request is what an access check asks for.
type Request struct {
	// Wanted is an access mask. It may be 0 with Maximum, which asks also for each other right that is granted.
	Wanted  uint32
	Maximum bool
	Mapping Mapping
	// ObjectType is the object type of a check in a directory, if it is not zero.
	ObjectType GUID
	// PrincipalSelf is the SID that PRINCIPAL SELF stands for, if it is not zero.
	PrincipalSelf SID
}

// A Verdict is the answer of a check.
type Verdict struct {
	// Granted says whether each wanted right is granted.
	Granted bool
	// Mask is the rights that are granted, or without Granted those of the wanted rights that are missing.
	Mask uint32
}

// An Answer is the verdict on one of many descriptors, or its *Fault.
type Answer struct {
	Verdict Verdict
	Err     error
}

// A Reason is why a right is granted or denied. Place is that of the ACE which decides it, in the SACL for a label and
// else in the DACL, or NoACE.
type Reason struct {
	Kind  ReasonKind
	Place int
}

// Grants says whether the right is granted.
func (r Reason) Grants() bool {
	return r.Kind == ByNoDACL || r.Kind == ByOwner || r.Kind == ByPrivilege || r.Kind == ByAllowACE
}

// A Checker makes access checks of one token and one request. Goroutines may share it.
type Checker struct {
	token *Token
	asked question
}

func (t *Token) Checker(request Request) *Checker {
	return &Checker{t, newQuestion(t, &request)}
}

// Check gives the verdict on a descriptor.
func (c *Checker) Check(descriptor Descriptor) (Verdict, error) {
	verdict, told := checkText(descriptor.layout, c.token.read, &c.asked)
	if told != nil {
		return verdict, faultOfBytes(told, descriptor.layout)
	}
	return verdict, nil
}

// CheckBytes gives the verdict on the bytes of a descriptor, in whatever layout.
func (c *Checker) CheckBytes(descriptor []byte) (Verdict, error) {
	verdict, told := checkBytes(descriptor, c.token.read, &c.asked)
	if told != nil {
		return verdict, faultOfBytes(told, string(descriptor))
	}
	return verdict, nil
}

// CheckMany gives the verdict on each of many descriptors, or its Fault. The request may have a Fault for all.
func (c *Checker) CheckMany(descriptors [][]byte) ([]Answer, error) {
	answers, told := checkMany(descriptors, c.token.sids, c.token.entries, &c.asked)
	return answers, fault(told)
}

// Reasons says why the token has each right or not, whatever is wanted.
func (c *Checker) Reasons(descriptor Descriptor) ([Rights]Reason, error) {
	reasons, told := reasonsWith(descriptor.layout, c.token.read, &c.asked)
	return reasons, fault(told)
}
