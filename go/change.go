//go:build cgo

package sdtool

// #include <sdtool.h>
import "C"

// A PutPlace is where an ACE is put: from 0 to the number of ACEs, AtEnd, or ByOrder, behind the last ACE of no higher
// rank.
type PutPlace uint32

const (
	AtEnd   PutPlace = C.SDTOOL_AT_END
	ByOrder PutPlace = C.SDTOOL_BY_ORDER
)

// A Change of a descriptor, for Descriptor.Edit. What is no change is refused there.
type Change struct {
	made C.struct_sdtool_change
}

func change(kind, acl uint32) Change {
	return Change{C.struct_sdtool_change{kind: C.uint32_t(kind), part: C.uint32_t(acl)}}
}

// PutACE puts an ACE into an ACL, OfSACL or OfDACL.
func PutACE(acl Part, place PutPlace, ace ACE) Change {
	return change(C.SDTOOL_PUT, uint32(acl)).at(uint32(place)).ofACE(ace)
}

// TakeACE takes the ACE at a place.
func TakeACE(acl Part, place uint32) Change {
	return change(C.SDTOOL_TAKE, uint32(acl)).at(place)
}

// ReplaceACE puts an ACE in the place of another one.
func ReplaceACE(acl Part, place uint32, ace ACE) Change {
	return change(C.SDTOOL_REPLACE, uint32(acl)).at(place).ofACE(ace)
}

// TakeEach takes each ACE that matches.
func TakeEach(acl Part, match Match) Change {
	return change(C.SDTOOL_TAKE_EACH, uint32(acl)).matching(match)
}

// SetEach sets each ACE that matches.
func SetEach(acl Part, match Match, setting Setting) Change {
	result := change(C.SDTOOL_SET_EACH, uint32(acl)).matching(match)
	result.made.set_mask, result.made.clear_mask = C.uint32_t(setting.SetMask), C.uint32_t(setting.ClearMask)
	result.made.set_flags, result.made.clear_flags = C.uint8_t(setting.SetFlags), C.uint8_t(setting.ClearFlags)
	put(result.made.set_sid[:], setting.SID.bytes)
	return result
}

// OrderACEs brings the ACEs of an ACL into order.
func OrderACEs(acl Part) Change {
	return change(C.SDTOOL_ORDER, uint32(acl))
}

// SetState makes an ACL absent, null, or a list without ACEs.
func SetState(acl Part, state ACLState) Change {
	result := change(C.SDTOOL_STATE, uint32(acl))
	if state > 0xff {
		state = 0xff // which is no state either
	}
	result.made.state = C.uint8_t(state)
	return result
}

// SetOwner gives a descriptor an owner, or none.
func SetOwner(sid SID) Change {
	return change(C.SDTOOL_SET_OWNER, 0).ofSID(sid)
}

// SetGroup gives a descriptor a group, or none.
func SetGroup(sid SID) Change {
	return change(C.SDTOOL_SET_GROUP, 0).ofSID(sid)
}

// SetControl sets and clears bits of the control word: all but 0x8000, 0x10 and 0x4.
func SetControl(set, clear uint16) Change {
	result := change(C.SDTOOL_CONTROL, 0)
	result.made.set_control, result.made.clear_control = C.uint16_t(set), C.uint16_t(clear)
	return result
}

func put(room []C.uint8_t, bytes string) {
	for index := range []byte(bytes) {
		room[index] = C.uint8_t(bytes[index])
	}
}

func (c Change) at(place uint32) Change {
	c.made.place = C.uint32_t(place)
	return c
}

func (c Change) ofSID(sid SID) Change {
	put(c.made.sid[:], sid.bytes)
	return c
}

func (c Change) ofACE(ace ACE) Change {
	c.made.ace_kind, c.made.flags = C.uint8_t(ace.Kind), C.uint8_t(ace.Flags)
	c.made.mask = C.uint32_t(ace.Mask)
	return c.ofTypes(ace.ObjectType, ace.InheritedObjectType).ofSID(ace.SID)
}

func (c Change) ofTypes(object, inherited GUID) Change {
	if !object.IsZero() {
		c.made.object_type_use = C.SDTOOL_TYPE_GIVEN
		put(c.made.object_type[:], object.bytes)
	}
	if !inherited.IsZero() {
		c.made.inherited_object_type_use = C.SDTOOL_TYPE_GIVEN
		put(c.made.inherited_object_type[:], inherited.bytes)
	}
	return c
}

func (c Change) matching(match Match) Change {
	if match.HasKind {
		c.made.compare |= C.SDTOOL_COMPARE_KIND
		c.made.ace_kind = C.uint8_t(match.Kind)
	}
	if match.HasMask {
		c.made.compare |= C.SDTOOL_COMPARE_MASK
		c.made.mask = C.uint32_t(match.Mask)
	}
	c.made.flags, c.made.flags_mask = C.uint8_t(match.Flags), C.uint8_t(match.FlagsMask)
	if match.NoObjectType {
		c.made.object_type_use = C.SDTOOL_TYPE_NONE
	}
	if match.NoInheritedObjectType {
		c.made.inherited_object_type_use = C.SDTOOL_TYPE_NONE
	}
	return c.ofTypes(match.ObjectType, match.InheritedObjectType).ofSID(match.SID)
}

// A Match is what is compared of an ACE: what is given here, and nothing else. One that compares nothing is no change.
type Match struct {
	SID SID // if it is not zero
	// The kind and the mask, if they are compared.
	HasKind bool
	Kind    Kind
	HasMask bool
	Mask    uint32
	// Those of the flags of FlagsMask that are set have to be Flags.
	Flags     uint8
	FlagsMask uint8
	// The object types, if they are not zero; or that there is none.
	ObjectType            GUID
	NoObjectType          bool
	InheritedObjectType   GUID
	NoInheritedObjectType bool
}

// A Setting is what each ACE that matches gets: a SID, if it is not zero, and bits that are set and cleared.
type Setting struct {
	SID        SID
	SetMask    uint32
	ClearMask  uint32
	SetFlags   uint8
	ClearFlags uint8
}

// Edited is a descriptor after changes, and how many ACEs each change put, took or set.
type Edited struct {
	Descriptor Descriptor
	Touched    []uint32
}
