//go:build cgo

package sdtool

// #cgo LDFLAGS: -lsdtool
// #include <sdtool.h>
// #include <stdlib.h>
// enum { token_first = SDTOOL_TOKEN_WORDS(0), token_each = SDTOOL_TOKEN_WORDS(1) - SDTOOL_TOKEN_WORDS(0) };
//
// // Structs are made here, since Go gives C no memory with pointers of Go.
// static inline struct sdtool_outcome convert_many(const uint8_t *data, size_t data_size, const uint64_t *offsets,
//                                                  size_t offset_count, const uint8_t *domain, size_t domain_size,
//                                                  size_t begin, uint32_t kind, uint32_t options, uint8_t *out,
//                                                  size_t out_size, uint64_t *ends, struct sdtool_outcome *outcomes)
// {
//     struct sdtool_large_conversion asked = {{data, data_size}, offsets, offset_count, {domain, domain_size}, begin,
//                                             kind, options};
//     return sdtool_convert_many_large(&asked, out, out_size, ends, offset_count, outcomes, offset_count - 1);
// }
//
// static inline struct sdtool_outcome derive_many(const uint8_t *data, size_t data_size, const uint64_t *offsets,
//                                                 size_t offset_count, const uint8_t *creator, size_t creator_size,
//                                                 const uint8_t *owner, size_t owner_size, const uint8_t *group,
//                                                 size_t group_size, size_t begin, uint32_t kind, uint32_t mapping,
//                                                 uint8_t *out, size_t out_size, uint64_t *ends,
//                                                 struct sdtool_outcome *outcomes)
// {
//     struct sdtool_large_derivation asked = {{{data, data_size}, offsets, offset_count},
//                                             {{creator, creator_size}, {owner, owner_size}, {group, group_size}, kind,
//                                              mapping},
//                                             begin};
//     return sdtool_derive_many_large(&asked, out, out_size, ends, offset_count, outcomes, offset_count - 1);
// }
//
// static inline struct sdtool_outcome check_column(const uint8_t *data, size_t data_size, const uint64_t *offsets,
//                                                  size_t offset_count, const uint8_t *sids, size_t sids_size,
//                                                  const uint8_t *entries, size_t sid_count, const uint8_t *object,
//                                                  size_t object_size, const uint8_t *principal_self,
//                                                  size_t principal_self_size, const struct sdtool_request *request,
//                                                  struct sdtool_verdict *verdicts)
// {
//     struct sdtool_large_column_check asked = {{{data, data_size}, offsets, offset_count}, {sids, sids_size},
//                                               {entries, sid_count}, {object, object_size},
//                                               {principal_self, principal_self_size}, *request};
//     return sdtool_check_column_large(&asked, verdicts, offset_count - 1);
// }
import "C"

import "unsafe"

// What a call says. It is a struct of numbers alone.
type outcome = C.struct_sdtool_outcome

// at is the pointer of a text or of bytes that are kept in one. C only reads them.
func at(text string) *C.uint8_t {
	if text == "" {
		return nil
	}
	return *(**C.uint8_t)(unsafe.Pointer(&text))
}

func size(text string) C.size_t {
	return C.size_t(len(text))
}

// first is the pointer of bytes.
func first(bytes []byte) *C.uint8_t {
	if len(bytes) == 0 {
		return nil
	}
	return (*C.uint8_t)(&bytes[0])
}

// answer is what a call gives. A first size that is too small takes a second call.
func answer(room int, call func(*C.uint8_t, C.size_t) outcome) (string, *outcome) {
	for {
		output := make([]byte, room)
		told := call(first(output), C.size_t(room))
		switch told.fault {
		case C.SDTOOL_OK:
			return string(output[:told.length]), nil
		case C.SDTOOL_TOO_SMALL:
			room = int(told.length)
		default:
			refused := told
			return "", &refused
		}
	}
}

func version() string {
	text, _ := answer(32, func(out *C.uint8_t, room C.size_t) outcome { return C.sdtool_version(out, room) })
	return text
}

func versionNumber() uint32 {
	return uint32(C.sdtool_version_number())
}

func faultText(number uint32) string {
	text, _ := answer(C.SDTOOL_MOST_FAULT_TEXT, func(out *C.uint8_t, room C.size_t) outcome {
		return C.sdtool_fault_text(C.uint32_t(number), out, room)
	})
	return text
}

func describe(told *outcome, place *C.struct_sdtool_fault_place) string {
	text, _ := answer(C.SDTOOL_MOST_DESCRIPTION, func(out *C.uint8_t, room C.size_t) outcome {
		return C.sdtool_describe(told, place, out, room)
	})
	return text
}

// faultOf is the fault of a call, at a place that counts only if it is that of the same fault.
func faultOf(told *outcome, place C.struct_sdtool_fault_place) *Fault {
	fault := &Fault{
		Number:    uint32(told.fault),
		Name:      faultText(uint32(told.fault)),
		Part:      Part(told.part),
		OtherPart: Part(told.other_part),
		Argument:  Argument(told.argument),
		Entry:     int(told.entry),
		sentence:  describe(told, &place),
	}
	if place.fault == told.fault {
		fault.Place = &Place{
			Part:   Part(place.part),
			ACE:    NoACE,
			Field:  Field(place.field),
			Offset: int(place.place.offset),
			Size:   int(place.place.size),
		}
		if place.ace != C.SDTOOL_NO_ACE {
			fault.Place.ACE = int(place.ace)
		}
	}
	return fault
}

// fault is the fault of a call whose input has no places; nil if there is none.
func fault(told *outcome) error {
	if told == nil {
		return nil
	}
	return faultOf(told, C.struct_sdtool_fault_place{})
}

func argumentFault(argument Argument) error {
	return fault(&outcome{fault: C.SDTOOL_ARGUMENT, argument: C.uint32_t(argument)})
}

func faultOfBytes(told *outcome, bytes string) error {
	if told == nil {
		return nil
	}
	return faultOf(told, C.sdtool_place(at(bytes), size(bytes)))
}

func faultOfSDDL(told *outcome, text, domain string) error {
	if told == nil {
		return nil
	}
	return faultOf(told, C.sdtool_sddl_place(at(text), size(text), at(domain), size(domain)))
}

// faultOfACE is the fault of an ACE's text, which the library reads behind "D:".
func faultOfACE(told *outcome, text, domain string) error {
	if told == nil {
		return nil
	}
	const head = "D:"
	within := head + text
	place := C.sdtool_sddl_place(at(within), size(within), at(domain), size(domain))
	place.place.offset -= C.size_t(atMost(len(head), int(place.place.offset)))
	// A second head is in the text itself.
	if place.part == C.SDTOOL_DACL && place.fault != C.SDTOOL_FAULT_PART_TWICE {
		place.part, place.ace = C.SDTOOL_NO_PART, C.SDTOOL_NO_ACE
	}
	return faultOf(told, place)
}

func normalize(bytes string) (string, *outcome) {
	return answer(atMost(len(bytes), C.SDTOOL_MOST_BYTES), func(out *C.uint8_t, room C.size_t) outcome {
		return C.sdtool_normalize(at(bytes), size(bytes), out, room)
	})
}

func fromSDDL(text, domain string) (string, *outcome) {
	return answer(atMost(64+4*len(text), C.SDTOOL_MOST_BYTES), func(out *C.uint8_t, room C.size_t) outcome {
		return C.sdtool_from_sddl(at(text), size(text), at(domain), size(domain), out, room)
	})
}

func atMost(number, most int) int {
	if number > most {
		return most
	}
	return number
}

// textSize is the size that suffices for the text of a descriptor.
func textSize(bytes string) int {
	return atMost(8*len(bytes)+64, C.SDTOOL_MOST_TEXT)
}

func toSDDL(bytes, domain string, numeric bool) string {
	text, _ := answer(textSize(bytes), func(out *C.uint8_t, room C.size_t) outcome {
		return C.sdtool_to_sddl(at(bytes), size(bytes), at(domain), size(domain), C.bool(numeric), out, room)
	})
	return text
}

func explain(bytes, domain string, numeric bool) string {
	text, _ := answer(textSize(bytes), func(out *C.uint8_t, room C.size_t) outcome {
		return C.sdtool_explain(at(bytes), size(bytes), at(domain), size(domain), C.bool(numeric), out, room)
	})
	return text
}

func sidFromText(text, domain string) (string, *outcome) {
	return answer(C.SDTOOL_MOST_SID, func(out *C.uint8_t, room C.size_t) outcome {
		return C.sdtool_sid_from_text(at(text), size(text), at(domain), size(domain), out, room)
	})
}

func sidToText(sid, domain string, numeric bool) (string, *outcome) {
	return answer(C.SDTOOL_MOST_SID_TEXT, func(out *C.uint8_t, room C.size_t) outcome {
		return C.sdtool_sid_to_text(at(sid), size(sid), at(domain), size(domain), C.bool(numeric), out, room)
	})
}

func sidSize(bytes string) int {
	return int(C.sdtool_sid_size(at(bytes), size(bytes)))
}

func guidFromText(text string) (string, *outcome) {
	return answer(guidSize, func(out *C.uint8_t, room C.size_t) outcome {
		return C.sdtool_guid_from_text(at(text), size(text), out, room)
	})
}

func guidToText(guid string) string {
	text, _ := answer(2*guidSize+4, func(out *C.uint8_t, room C.size_t) outcome {
		return C.sdtool_guid_to_text(at(guid), size(guid), out, room)
	})
	return text
}

func numberOf(found C.struct_sdtool_number) (uint32, error) {
	if found.outcome.fault != C.SDTOOL_OK {
		return 0, fault(&found.outcome)
	}
	return uint32(found.number), nil
}

func rightsFromText(text string) (uint32, error) {
	return numberOf(C.sdtool_rights_from_text(at(text), size(text)))
}

func rightsToText(mask uint32, label bool) string {
	text, _ := answer(C.SDTOOL_MOST_ACE_TEXT, func(out *C.uint8_t, room C.size_t) outcome {
		return C.sdtool_rights_to_text(C.uint32_t(mask), C.bool(label), out, room)
	})
	return text
}

func flagsFromText(text string) (uint32, error) {
	return numberOf(C.sdtool_flags_from_text(at(text), size(text)))
}

func flagsToText(flags uint32) (string, *outcome) {
	return answer(C.SDTOOL_MOST_ACE_TEXT, func(out *C.uint8_t, room C.size_t) outcome {
		return C.sdtool_flags_to_text(C.uint32_t(flags), out, room)
	})
}

func aceFromText(text, domain string) (string, *outcome) {
	return answer(C.SDTOOL_MOST_ACE, func(out *C.uint8_t, room C.size_t) outcome {
		return C.sdtool_ace_from_text(at(text), size(text), at(domain), size(domain), out, room)
	})
}

func aceToText(ace, domain string, numeric bool) (string, *outcome) {
	return answer(C.SDTOOL_MOST_ACE_TEXT, func(out *C.uint8_t, room C.size_t) outcome {
		return C.sdtool_ace_to_text(at(ace), size(ace), at(domain), size(domain), C.bool(numeric), out, room)
	})
}

func aceRead(bytes string) ACE {
	ace := C.sdtool_ace_read(at(bytes), size(bytes))
	return aceOf(bytes, &ace)
}

// partAt is what lies at a place.
func partAt(bytes string, place C.struct_sdtool_place) string {
	return bytes[place.offset : place.offset+place.size]
}

// aceOf is the ACE that the library has found in some bytes.
func aceOf(bytes string, ace *C.struct_sdtool_ace) ACE {
	return ACE{
		Kind:                Kind(ace.kind),
		Flags:               uint8(ace.flags),
		Mask:                uint32(ace.mask),
		SID:                 SID{partAt(bytes, ace.sid)},
		ObjectType:          GUID{partAt(bytes, ace.object_type)},
		InheritedObjectType: GUID{partAt(bytes, ace.inherited_object_type)},
	}
}

// acesOf is the ACEs of an ACL that the library has found in a descriptor.
func acesOf(acl string, count int) []ACE {
	aces := make([]ACE, 0, count)
	var ace C.struct_sdtool_ace
	for C.sdtool_next_ace(at(acl), size(acl), &ace) {
		aces = append(aces, aceOf(acl, &ace))
	}
	return aces
}

// bytesOfACE is the bytes of the only ACE of a DACL.
func bytesOfACE(bytes string) string {
	acl := partAt(bytes, C.sdtool_parts(at(bytes), size(bytes)).dacl.place)
	var ace C.struct_sdtool_ace
	C.sdtool_next_ace(at(acl), size(acl), &ace)
	return partAt(acl, ace.place)
}

func aclOf(bytes string, acl *C.struct_sdtool_acl_place) ACL {
	if acl.state != C.SDTOOL_ACL_LIST {
		return ACL{state: ACLState(acl.state)}
	}
	return ACL{List, acesOf(partAt(bytes, acl.place), int(acl.ace_count))}
}

func partsOf(bytes string) Parts {
	found := C.sdtool_parts(at(bytes), size(bytes))
	return Parts{
		Owner:           SID{partAt(bytes, found.owner)},
		Group:           SID{partAt(bytes, found.group)},
		DACL:            aclOf(bytes, &found.dacl),
		SACL:            aclOf(bytes, &found.sacl),
		Control:         uint16(found.control),
		ResourceManager: uint8(found.resource_manager),
	}
}

func orderOf(bytes string) Order {
	found := C.sdtool_order(at(bytes), size(bytes))
	place := func(number C.uint32_t) int {
		if number == C.SDTOOL_NO_ACE {
			return NoACE
		}
		return int(number)
	}
	return Order{SACL: place(found.sacl), DACL: place(found.dacl)}
}

// room is memory of C, in which C may find pointers.
type room struct {
	start unsafe.Pointer
	used  uintptr
}

const alignment = 8

func aligned(bytes uintptr) uintptr {
	return (bytes + alignment - 1) &^ (alignment - 1)
}

func newRoom(bytes uintptr) *room {
	return &room{start: C.malloc(C.size_t(bytes + alignment))}
}

func (r *room) free() {
	C.free(r.start)
}

func (r *room) take(bytes uintptr) unsafe.Pointer {
	place := unsafe.Add(r.start, r.used)
	r.used += aligned(bytes)
	return place
}

// copyOf is bytes in the room.
func (r *room) copyOf(bytes string) C.struct_sdtool_bytes {
	if bytes == "" {
		return C.struct_sdtool_bytes{}
	}
	place := r.take(uintptr(len(bytes)))
	copy(unsafe.Slice((*byte)(place), len(bytes)), bytes)
	return C.struct_sdtool_bytes{bytes: (*C.uint8_t)(place), size: size(bytes)}
}

func roomFor(acl ACL) uintptr {
	const mostOfACE = C.SDTOOL_MOST_SID + 2*guidSize + 3*alignment
	return uintptr(len(acl.aces)) * (unsafe.Sizeof(C.struct_sdtool_new_ace{}) + mostOfACE)
}

func (r *room) acl(acl ACL) C.struct_sdtool_new_acl {
	count := len(acl.aces)
	if count == 0 {
		return C.struct_sdtool_new_acl{state: C.uint32_t(acl.state)}
	}
	place := r.take(uintptr(count) * unsafe.Sizeof(C.struct_sdtool_new_ace{}))
	for index, ace := range acl.aces {
		unsafe.Slice((*C.struct_sdtool_new_ace)(place), count)[index] = C.struct_sdtool_new_ace{
			sid:                   r.copyOf(ace.SID.bytes),
			object_type:           r.copyOf(ace.ObjectType.bytes),
			inherited_object_type: r.copyOf(ace.InheritedObjectType.bytes),
			mask:                  C.uint32_t(ace.Mask),
			kind:                  C.uint8_t(ace.Kind),
			flags:                 C.uint8_t(ace.Flags),
		}
	}
	return C.struct_sdtool_new_acl{
		aces: (*C.struct_sdtool_new_ace)(place), ace_count: C.size_t(count), state: C.uint32_t(acl.state),
	}
}

func build(parts *Parts) (string, *outcome) {
	const mostOfParts = 2*C.SDTOOL_MOST_SID + 4*alignment
	all := newRoom(unsafe.Sizeof(C.struct_sdtool_new_descriptor{}) + mostOfParts + roomFor(parts.SACL) + roomFor(parts.DACL))
	defer all.free()
	given := (*C.struct_sdtool_new_descriptor)(all.take(unsafe.Sizeof(C.struct_sdtool_new_descriptor{})))
	*given = C.struct_sdtool_new_descriptor{
		owner:            all.copyOf(parts.Owner.bytes),
		group:            all.copyOf(parts.Group.bytes),
		sacl:             all.acl(parts.SACL),
		dacl:             all.acl(parts.DACL),
		control:          C.uint16_t(parts.Control),
		resource_manager: C.uint8_t(parts.ResourceManager),
	}
	return answer(1024, func(out *C.uint8_t, room C.size_t) outcome { return C.sdtool_build(given, out, room) })
}

// firstChange is the pointer of changes, each of which is nothing but the struct.
func firstChange(changes []Change) *C.struct_sdtool_change {
	if len(changes) == 0 {
		return nil
	}
	return &changes[0].made
}

func edit(bytes string, changes []Change) (string, []uint32, *outcome) {
	touched := make([]uint32, len(changes))
	var counts *C.uint32_t
	if len(touched) > 0 {
		counts = (*C.uint32_t)(&touched[0])
	}
	count := C.size_t(len(changes))
	made, told := answer(len(bytes)+1024, func(out *C.uint8_t, room C.size_t) outcome {
		return C.sdtool_edit(at(bytes), size(bytes), firstChange(changes), count, counts, count, out, room)
	})
	return made, touched, told
}

// words is a token as the library has read it.
type words []C.uint32_t

func tokenRead(sids, entries string) (words, *outcome) {
	token := make(words, C.token_first+C.token_each*atMost(len(entries), C.SDTOOL_MOST_SIDS))
	told := C.sdtool_token_read(at(sids), size(sids), at(entries), size(entries), &token[0], C.size_t(len(token)))
	if told.fault != C.SDTOOL_OK {
		return nil, &told
	}
	return token, nil
}

// question is what is asked of a check, beside the token.
type question struct {
	object, principalSelf string
	request               *C.struct_sdtool_request
}

func newQuestion(token *Token, request *Request) question {
	asked := &C.struct_sdtool_request{wanted: C.uint32_t(request.Wanted)}
	asked.asker.mapping = C.uint32_t(request.Mapping)
	asked.asker.level = C.uint32_t(token.level)
	asked.asker.options = C.uint32_t(token.options)
	if request.Maximum {
		asked.options = C.SDTOOL_MAXIMUM
	}
	return question{request.ObjectType.bytes, request.PrincipalSelf.bytes, asked}
}

func checkWith(bytes *C.uint8_t, count int, token words, asked *question) (Verdict, *outcome) {
	told := C.sdtool_check_with(bytes, C.size_t(count), &token[0], C.size_t(len(token)), at(asked.object),
		size(asked.object), at(asked.principalSelf), size(asked.principalSelf), asked.request)
	if told.outcome.fault != C.SDTOOL_OK {
		refused := told.outcome // so that no verdict needs the heap
		return Verdict{}, &refused
	}
	return Verdict{Granted: told.granted == 1, Mask: uint32(told.mask)}, nil
}

func checkText(bytes string, token words, asked *question) (Verdict, *outcome) {
	return checkWith(at(bytes), len(bytes), token, asked)
}

func checkBytes(bytes []byte, token words, asked *question) (Verdict, *outcome) {
	return checkWith(first(bytes), len(bytes), token, asked)
}

// checkMany checks descriptors by one call, which reads the token once.
func checkMany(descriptors [][]byte, sids, entries string, asked *question) ([]Answer, *outcome) {
	count := len(descriptors)
	all := uintptr(count) * (unsafe.Sizeof(C.struct_sdtool_bytes{}) + alignment)
	for _, bytes := range descriptors {
		all += uintptr(len(bytes))
	}
	given := newRoom(all)
	defer given.free()
	list := given.take(uintptr(count) * unsafe.Sizeof(C.struct_sdtool_bytes{}))
	for index, bytes := range descriptors {
		place := given.take(uintptr(len(bytes)))
		copy(unsafe.Slice((*byte)(place), len(bytes)), bytes)
		unsafe.Slice((*C.struct_sdtool_bytes)(list), count)[index] =
			C.struct_sdtool_bytes{bytes: (*C.uint8_t)(place), size: C.size_t(len(bytes))}
	}
	verdicts := make([]C.struct_sdtool_verdict, count+1)
	told := C.sdtool_check_many((*C.struct_sdtool_bytes)(list), C.size_t(count), at(sids), size(sids), at(entries),
		size(entries), at(asked.object), size(asked.object), at(asked.principalSelf), size(asked.principalSelf),
		asked.request, &verdicts[0], C.size_t(count))
	return answersOf(told, verdicts[:count], func(index int) string { return string(descriptors[index]) })
}

func checkColumn(column *Column, sids, entries string, asked *question) ([]Answer, *outcome) {
	count := len(column.Offsets) - 1
	if count < 0 {
		return nil, &outcome{fault: C.SDTOOL_ARGUMENT, argument: C.SDTOOL_ARGUMENT_OFFSETS}
	}
	verdicts := make([]C.struct_sdtool_verdict, count+1)
	told := C.check_column(first(column.Data), C.size_t(len(column.Data)), offset(column.Offsets, 0),
		C.size_t(count+1), at(sids), size(sids), at(entries), size(entries), at(asked.object), size(asked.object),
		at(asked.principalSelf), size(asked.principalSelf), asked.request, &verdicts[0])
	return answersOf(told, verdicts[:count], column.row)
}

// answersOf gives the verdicts, if there are any. BYTES are those of a descriptor.
func answersOf(told outcome, verdicts []C.struct_sdtool_verdict, bytes func(int) string) ([]Answer, *outcome) {
	if told.fault != C.SDTOOL_OK {
		return nil, &told
	}
	answers := make([]Answer, len(verdicts))
	for index := range answers {
		verdict := &verdicts[index]
		switch verdict.outcome.fault {
		case C.SDTOOL_OK:
			answers[index].Verdict = Verdict{Granted: verdict.granted == 1, Mask: uint32(verdict.mask)}
		case C.SDTOOL_ARGUMENT:
			answers[index].Err = fault(&verdict.outcome)
		default:
			answers[index].Err = faultOfBytes(&verdict.outcome, bytes(index))
		}
	}
	return answers, nil
}

func offset(offsets []int64, row int) *C.uint64_t {
	return (*C.uint64_t)(unsafe.Pointer(&offsets[row]))
}

// rowsOf gives the answers of a call to the rows of a column, where each ends, and what the library says of each row.
// The call is asked about the rows from one on.
func rowsOf(column *Column, ask func(row int, made *Column, outcomes []outcome) outcome) (Column, []outcome, *outcome) {
	rows := len(column.Offsets) - 1
	if rows < 0 {
		return Column{}, nil, &outcome{fault: C.SDTOOL_ARGUMENT, argument: C.SDTOOL_ARGUMENT_OFFSETS}
	}
	made := Column{make([]byte, len(column.Data)+1024), make([]int64, rows+1)}
	outcomes := make([]outcome, rows+1)
	for row := 0; ; {
		told := ask(row, &made, outcomes)
		switch told.fault {
		case C.SDTOOL_OK:
			made.Data = made.Data[:told.length]
			return made, outcomes[:rows], nil
		case C.SDTOOL_TOO_SMALL:
			row += int(told.entry)
			room := int(made.Offsets[row]) + int(told.length) + len(made.Data)
			made.Data = append(make([]byte, 0, room), made.Data...)[:room]
		default:
			return Column{}, nil, &told
		}
	}
}

func convertMany(kind Conversion, numeric bool, domain string, column *Column) (Column, []outcome, *outcome) {
	var options C.uint32_t
	if numeric {
		options = C.SDTOOL_NUMERIC
	}
	return rowsOf(column, func(row int, made *Column, outcomes []outcome) outcome {
		return C.convert_many(first(column.Data), C.size_t(len(column.Data)), offset(column.Offsets, row),
			C.size_t(len(column.Offsets)-row), at(domain), size(domain), C.size_t(made.Offsets[row]), C.uint32_t(kind),
			options, first(made.Data), C.size_t(len(made.Data)), offset(made.Offsets, row), &outcomes[row])
	})
}

func deriveMany(made *Creation, parents *Column) (Column, []outcome, *outcome) {
	creator, owner, group := made.Creator.layout, made.Owner.bytes, made.Group.bytes
	kind, mapping := C.uint32_t(made.Kind), C.uint32_t(made.Mapping)
	return rowsOf(parents, func(row int, children *Column, outcomes []outcome) outcome {
		return C.derive_many(first(parents.Data), C.size_t(len(parents.Data)), offset(parents.Offsets, row),
			C.size_t(len(parents.Offsets)-row), at(creator), size(creator), at(owner), size(owner), at(group),
			size(group), C.size_t(children.Offsets[row]), kind, mapping, first(children.Data),
			C.size_t(len(children.Data)), offset(children.Offsets, row), &outcomes[row])
	})
}

func reasonsWith(bytes string, token words, asked *question) (reasons [Rights]Reason, told *outcome) {
	var found [Rights]C.struct_sdtool_reason
	ended := C.sdtool_reasons_with(at(bytes), size(bytes), &token[0], C.size_t(len(token)), at(asked.object),
		size(asked.object), at(asked.principalSelf), size(asked.principalSelf), &asked.request.asker, &found[0])
	if ended.fault != C.SDTOOL_OK {
		return reasons, &ended
	}
	for right, reason := range found {
		reasons[right] = Reason{Kind: ReasonKind(reason.kind), Place: NoACE}
		if reason.place != C.SDTOOL_NO_PLACE {
			reasons[right].Place = int(reason.place)
		}
	}
	return reasons, nil
}

func derive(parent string, made *Creation) (string, *outcome) {
	creator, owner, group := made.Creator.layout, made.Owner.bytes, made.Group.bytes
	return answer(len(parent)+len(creator)+1024, func(out *C.uint8_t, room C.size_t) outcome {
		return C.sdtool_derive(at(parent), size(parent), at(creator), size(creator), at(owner), size(owner),
			at(group), size(group), C.uint32_t(made.Kind), C.uint32_t(made.Mapping), out, room)
	})
}

func originsOf(found []C.struct_sdtool_origin) []Origin {
	origins := make([]Origin, len(found))
	for index, origin := range found {
		origins[index] = Origin{
			Place: int(origin.place), FromCreator: origin.from_creator == 1, InheritOnly: origin.inherit_only == 1,
		}
	}
	return origins
}

func deriveOrigins(parent string, made *Creation) (Origins, *outcome) {
	const most = C.SDTOOL_MOST_DERIVED_ACES
	creator, owner, group := made.Creator.layout, made.Owner.bytes, made.Group.bytes
	sacl, dacl := make([]C.struct_sdtool_origin, most), make([]C.struct_sdtool_origin, most)
	told := C.sdtool_derive_origins(at(parent), size(parent), at(creator), size(creator), at(owner), size(owner),
		at(group), size(group), C.uint32_t(made.Kind), C.uint32_t(made.Mapping), &sacl[0], most, &dacl[0], most)
	if told.outcome.fault != C.SDTOOL_OK {
		return Origins{}, &told.outcome
	}
	return Origins{SACL: originsOf(sacl[:told.sacl_count]), DACL: originsOf(dacl[:told.dacl_count])}, nil
}

func run(spelled string, input []byte) Ending {
	room := 4096 + 4*len(input)
	for {
		output, message := make([]byte, room), make([]byte, C.SDTOOL_MOST_MESSAGE)
		told := C.sdtool_run(at(spelled), size(spelled), first(input), C.size_t(len(input)), first(output),
			C.size_t(room), first(message), C.SDTOOL_MOST_MESSAGE)
		// Help that was cut ends with status 0.
		isCut := told.status == C.SDTOOL_STATUS_STOPPED || int(told.length) >= room
		if !isCut || told.status == C.SDTOOL_STATUS_NO_MEMORY {
			return Ending{uint32(told.status), output[:told.length], string(message[:told.message_length])}
		}
		room *= 4
	}
}
