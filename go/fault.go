//go:build cgo

package sdtool

// A Fault says why there is no answer: the input has a fault, so what it grants is unknown, or an argument is wrong.
// Treat it as denied, also one whose number you do not know: a later library may have more.
//
//	var fault *sdtool.Fault
//	if errors.As(err, &fault) { .. fault.Name .. }
type Fault struct {
	// Number is one of enum sdtool_fault in sdtool.h, and Name its name, such as "sid-form".
	Number uint32
	Name   string
	// Part is the part of the descriptor that it is about, and OtherPart the second one of two that share a byte.
	Part      Part
	OtherPart Part
	// Argument is the argument that is wrong beside the descriptor, and Entry which of its entries, if it is a list.
	Argument Argument
	Entry    int
	// Place is where it is in the bytes or in the text; nil if it has no place.
	Place    *Place
	sentence string
}

// A Place is where a fault is in the bytes or in the text that a call was given.
type Place struct {
	Part Part
	// ACE is the number of the ACE in that part, from 0 on, or NoACE.
	ACE   int
	Field Field
	// Offset is the first byte, and Size how many there are: 0 where something is missing.
	Offset int
	Size   int
}

// Error says what is wrong, and where.
func (f *Fault) Error() string {
	return f.sentence
}
