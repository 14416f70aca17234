//go:build cgo

package sdtool

// #include <sdtool.h>
import "C"

// A Part of a descriptor. Zero is none.
type Part uint32

const (
	OfOwner Part = C.SDTOOL_OWNER
	OfGroup Part = C.SDTOOL_GROUP
	OfSACL  Part = C.SDTOOL_SACL
	OfDACL  Part = C.SDTOOL_DACL
)

// A Field of an ACE or of a part. Zero is none.
type Field uint32

const (
	FieldKind                Field = C.SDTOOL_FIELD_KIND
	FieldFlags               Field = C.SDTOOL_FIELD_FLAGS
	FieldRights              Field = C.SDTOOL_FIELD_RIGHTS
	FieldObjectType          Field = C.SDTOOL_FIELD_OBJECT_TYPE
	FieldInheritedObjectType Field = C.SDTOOL_FIELD_INHERITED_OBJECT_TYPE
	FieldSID                 Field = C.SDTOOL_FIELD_SID
	FieldSize                Field = C.SDTOOL_FIELD_SIZE
)

// An Argument beside the descriptor or the text: one of enum sdtool_argument in sdtool.h. Zero is none.
type Argument uint32

// NoACE is the number of an ACE where there is none.
const NoACE = -1

// A Kind of ACE: A, D, AU, OA, OD, OU and ML of SDDL. Those of objects may have object types.
type Kind uint8

const (
	Allow       Kind = 0
	Deny        Kind = 1
	Audit       Kind = 2
	ObjectAllow Kind = 5
	ObjectDeny  Kind = 6
	ObjectAudit Kind = 7
	Label       Kind = 0x11
)

// An ACLState says whether there is a list of ACEs. A DACL that is absent or null grants everything, and an empty list
// nothing.
type ACLState uint32

const (
	Absent ACLState = C.SDTOOL_ACL_ABSENT
	Null   ACLState = C.SDTOOL_ACL_NULL
	List   ACLState = C.SDTOOL_ACL_LIST
)

// A Mapping is the kind of object whose rights the generic rights stand for.
type Mapping uint32

const (
	File      Mapping = C.SDTOOL_MAPPING_FILE
	Key       Mapping = C.SDTOOL_MAPPING_KEY
	Directory Mapping = C.SDTOOL_MAPPING_DS
)

// A NewKind is what is made in a folder.
type NewKind uint32

const (
	NewFile      NewKind = C.SDTOOL_KIND_FILE
	NewContainer NewKind = C.SDTOOL_KIND_CONTAINER
)

// A Conversion is what the rows of a column are converted to.
type Conversion uint32

const (
	// ToSDDL converts descriptors to SDDL.
	ToSDDL Conversion = C.SDTOOL_CONVERT_TO_SDDL
	// FromSDDL converts SDDL to descriptors in their canonical layout.
	FromSDDL Conversion = C.SDTOOL_CONVERT_FROM_SDDL
	// Normalize converts descriptors to their canonical layout.
	Normalize Conversion = C.SDTOOL_CONVERT_NORMALIZE
)

// Rights is how many rights a mask has.
const Rights = C.SDTOOL_RIGHTS

// A ReasonKind is why a right is granted or denied. One that is not known is a denial.
type ReasonKind uint16

const (
	ByNothing   ReasonKind = C.SDTOOL_REASON_NOTHING
	ByLabel     ReasonKind = C.SDTOOL_REASON_LABEL
	ByNoDACL    ReasonKind = C.SDTOOL_REASON_NO_DACL
	ByOwner     ReasonKind = C.SDTOOL_REASON_OWNER
	ByPrivilege ReasonKind = C.SDTOOL_REASON_PRIVILEGE
	ByAllowACE  ReasonKind = C.SDTOOL_REASON_GRANTED
	ByDenyACE   ReasonKind = C.SDTOOL_REASON_DENIED
)

const (
	hasLevel      = C.SDTOOL_HAS_LEVEL
	security      = C.SDTOOL_SECURITY
	takeOwnership = C.SDTOOL_TAKE_OWNERSHIP
	denyOnly      = C.SDTOOL_DENY_ONLY
	argumentSID   = C.SDTOOL_ARGUMENT_SID
	argumentGUID  = C.SDTOOL_ARGUMENT_GUID
)
