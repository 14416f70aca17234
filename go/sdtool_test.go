//go:build cgo

package sdtool_test

import (
	"encoding/json"
	"errors"
	"fmt"
	"testing"

	"zaptirony.example/sdtool"
)

func sid(t *testing.T, text string) sdtool.SID {
	t.Helper()
	found, err := sdtool.ParseSID(text)
	if err != nil {
		t.Fatal(err)
	}
	return found
}

func descriptor(t *testing.T, text string) sdtool.Descriptor {
	t.Helper()
	found, err := sdtool.Parse(text)
	if err != nil {
		t.Fatal(err)
	}
	return found
}

func Example() {
	users, err := sdtool.Parse("O:BAD:(A;OICI;FR;;;BU)")
	if err != nil {
		panic(err)
	}
	everyone, _ := sdtool.ParseSID("WD")
	member, _ := sdtool.ParseSID("BU")
	token, err := sdtool.NewToken([]sdtool.SID{everyone, member}, nil)
	if err != nil {
		panic(err)
	}
	read, _ := sdtool.ParseRights("FR")
	verdict, err := users.Check(token, sdtool.Request{Wanted: read})
	fmt.Println(users.Owner(), verdict.Granted, err)
	// Output: S-1-5-32-544 true <nil>
}

func ExampleColumn_Convert() {
	texts := sdtool.Column{Data: []byte("O:BAO:X:"), Offsets: []int64{0, 4, 8}}
	found, faults, err := texts.Convert(sdtool.FromSDDL, sdtool.SID{}, false)
	fmt.Println(found.Offsets, faults[1], err)
	_, _, err = sdtool.Column{}.Convert(sdtool.Normalize, sdtool.SID{}, false)
	fmt.Println(err)
	// Output:
	// [0 36 36] error 20 shape: parentheses, colons or the number of fields are wrong, at byte 3, the owner, SID <nil>
	// offsets: error 70 argument: an argument beside the descriptor or the text is invalid
}

func ExampleFault() {
	_, err := sdtool.Parse("D:(A;;FA;;;WD)(A;;FA;;;Everyone)")
	var fault *sdtool.Fault
	if errors.As(err, &fault) {
		fmt.Println(fault.Name, fault.Place.Part == sdtool.OfDACL, fault.Place.ACE, fault.Place.Offset)
	}
	fmt.Println(err)
	// Output:
	// sid-form true 1 23
	// error 25 sid-form: any other text that is not a SID, at byte 23, ACE 2 of the DACL, SID
}

func ExampleDescriptor_Edit() {
	shared, _ := sdtool.Parse("D:PAI(A;;FR;;;WD)(A;ID;FA;;;BA)")
	everyone, _ := sdtool.ParseSID("WD")
	deny, _ := sdtool.ParseACE("(D;;0x2;;;BU)")
	edited, err := shared.Edit(
		sdtool.TakeEach(sdtool.OfDACL, sdtool.Match{SID: everyone}),
		sdtool.PutACE(sdtool.OfDACL, sdtool.ByOrder, deny))
	fmt.Println(edited.Descriptor, edited.Touched, err)
	// Output: D:PAI(D;;DC;;;BU)(A;ID;FA;;;BA) [1 1] <nil>
}

func TestValuesAreComparable(t *testing.T) {
	one, other := descriptor(t, "O:BAD:(A;;FR;;;BU)"), descriptor(t, "O:S-1-5-32-544D:(A;;0x120089;;;BU)")
	if one != other || one.DACL().At(0) != other.DACL().At(0) || one.Owner() != sid(t, "BA") {
		t.Error("equal content is not equal")
	}
	built, err := sdtool.Build(sdtool.Parts{Owner: one.Owner(), DACL: one.DACL()})
	if err != nil || built != one {
		t.Error(built, err)
	}
	if _, isKey := map[sdtool.SID]bool{sid(t, "BA"): true}[one.Owner()]; !isKey {
		t.Error("a SID is no key")
	}
}

func TestTexts(t *testing.T) {
	type record struct {
		Descriptor sdtool.Descriptor
		Owner      sdtool.SID
		ACE        sdtool.ACE
		Type       sdtool.GUID
	}
	given := record{Descriptor: descriptor(t, "O:BAD:(A;;FR;;;BU)"), Owner: sid(t, "BA")}
	given.ACE = given.Descriptor.DACL().At(0)
	given.Type = sdtool.GUIDFromBytes([16]byte{1, 2, 3})
	text, err := json.Marshal(given)
	if err != nil {
		t.Fatal(err)
	}
	var read record
	if err := json.Unmarshal(text, &read); err != nil || read != given {
		t.Errorf("%s: %v, %v", text, read, err)
	}
	var wrong *sdtool.Fault
	if err := json.Unmarshal([]byte(`{"Descriptor": "D:(A;;FA;;;Everyone)"}`), &read); !errors.As(err, &wrong) {
		t.Error(err)
	}
	unsaid, err := sdtool.Build(sdtool.Parts{ResourceManager: 7, Control: 0x4000})
	if err != nil {
		t.Fatal(err)
	}
	if text, err := unsaid.MarshalText(); err == nil {
		t.Errorf("%s does not say the resource manager byte", text)
	}
	var bytes sdtool.Descriptor
	if err := bytes.UnmarshalBinary(unsaid.Bytes()); err != nil || bytes != unsaid {
		t.Error(bytes, err)
	}
}

func TestNoneIsNeverGranted(t *testing.T) {
	token, err := sdtool.NewToken([]sdtool.SID{sid(t, "WD")}, nil)
	if err != nil {
		t.Fatal(err)
	}
	verdict, err := sdtool.Descriptor{}.Check(token, sdtool.Request{Wanted: 1})
	var fault *sdtool.Fault
	if verdict.Granted || !errors.As(err, &fault) || fault.Name != "short" {
		t.Error(verdict, err)
	}
	if _, err := sdtool.NewToken([]sdtool.SID{{}}, nil); err == nil {
		t.Error("the zero SID is in a token")
	}
	for _, state := range []sdtool.ACLState{3, 256, 1 << 31} {
		if edited, err := descriptor(t, "D:").Edit(sdtool.SetState(sdtool.OfDACL, state)); err == nil {
			t.Error(state, edited)
		}
	}
	defer func() {
		if recover() == nil {
			t.Error("the zero Descriptor has a DACL")
		}
	}()
	sdtool.Descriptor{}.DACL()
}

func TestChangesThatCanNotBeMade(t *testing.T) {
	_, err := descriptor(t, "D:NO_ACCESS_CONTROL").Edit(sdtool.SetOwner(sdtool.SID{}), sdtool.TakeACE(sdtool.OfDACL, 0))
	var fault *sdtool.Fault
	if !errors.As(err, &fault) || fault.Number != 73 || fault.Entry != 1 {
		t.Error(err)
	}
	_, err = descriptor(t, "D:").Edit(sdtool.TakeEach(sdtool.OfDACL, sdtool.Match{}))
	if !errors.As(err, &fault) || fault.Number != 70 {
		t.Error(err)
	}
}
