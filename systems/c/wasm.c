// WebAssembly, for JavaScript: the calls of sdtool.h as a 32-bit machine has them. Pointers and sizes have 32 bits, and
// a struct that a call returns goes to a pointer in front of the call's arguments. The layout of each struct is the
// header's with a size_t of 32 bits. A caller gets room for its bytes from `allocate`, and puts structs at places that
// 4 divides.
//
// The proved calls are compiled for a 64-bit memory. In the compiler's own form a call that returns a struct has a
// pointer in front, to which it writes the struct, and returns that pointer. C for WebAssembly returns nothing there,
// so the calls are declared anew.
#include "../../include/sdtool.h"
#include "rattle.h"

#define EXPORT(name) __attribute__((export_name(#name)))

struct outcome {
    uint32_t fault, part, other_part, argument, entry, length;
};

struct verdict {
    struct outcome outcome;
    uint32_t mask;
    uint8_t granted;
};

struct acl_order {
    struct outcome outcome;
    uint32_t sacl, dacl;
};

struct number {
    struct outcome outcome;
    uint32_t number;
};

struct ending {
    uint32_t status, length, message_length;
};

struct origins {
    struct outcome outcome;
    uint32_t sacl_count, dacl_count;
};

struct place {
    uint32_t offset, size;
};

struct acl_place {
    uint32_t state, ace_count;
    struct place place;
};

struct contents {
    struct outcome outcome;
    uint16_t control;
    uint8_t resource_manager;
    struct place owner, group;
    struct acl_place sacl, dacl;
};

struct ace {
    uint32_t fault, mask, number;
    uint8_t kind, flags;
    struct place place, object_type, inherited_object_type, sid;
};

struct fault_place {
    uint32_t fault, part, ace, field;
    struct place place;
};

struct bytes {
    uint32_t bytes, size;
};

struct new_ace {
    struct bytes sid, object_type, inherited_object_type;
    uint32_t mask;
    uint8_t kind, flags;
};

struct new_acl {
    uint32_t aces, ace_count, state;
};

struct new_descriptor {
    struct bytes owner, group;
    struct new_acl sacl, dacl;
    uint16_t control;
    uint8_t resource_manager;
};

#define CALL(call, type, ...) type *proved_##call(type *told, __VA_ARGS__) __asm__("sdtool_" #call)
#define INPUT(name) const uint8_t *name, size_t name##_size
#define OUTPUT(name) uint8_t *name, size_t name##_size

CALL(version, struct sdtool_outcome, OUTPUT(text));
uint32_t proved_version_number(void) __asm__("sdtool_version_number");
CALL(to_sddl, struct sdtool_outcome, INPUT(descriptor), INPUT(domain), bool numeric, OUTPUT(text));
CALL(explain, struct sdtool_outcome, INPUT(descriptor), INPUT(domain), bool numeric, OUTPUT(text));
CALL(normalize, struct sdtool_outcome, INPUT(descriptor), OUTPUT(output));
CALL(from_sddl, struct sdtool_outcome, INPUT(text), INPUT(domain), OUTPUT(output));
CALL(check, struct sdtool_verdict, INPUT(descriptor), INPUT(sids), const uint8_t *entries, size_t sid_count,
     INPUT(object), INPUT(principal_self), const struct sdtool_request *request);
CALL(derive, struct sdtool_outcome, INPUT(parent), INPUT(creator), INPUT(owner), INPUT(group), uint32_t kind,
     uint32_t mapping, OUTPUT(output));
CALL(derive_origins, struct sdtool_origins, INPUT(parent), INPUT(creator), INPUT(owner), INPUT(group), uint32_t kind,
     uint32_t mapping, struct sdtool_origin *sacl, size_t sacl_room, struct sdtool_origin *dacl, size_t dacl_room);
CALL(sid_from_text, struct sdtool_outcome, INPUT(text), INPUT(domain), OUTPUT(sid));
CALL(sid_to_text, struct sdtool_outcome, INPUT(sid), INPUT(domain), bool numeric, OUTPUT(text));
size_t proved_sid_size(INPUT(bytes)) __asm__("sdtool_sid_size");
CALL(parts, struct sdtool_contents, INPUT(descriptor));
bool proved_next_ace(INPUT(acl), struct sdtool_ace *ace) __asm__("sdtool_next_ace");
CALL(place, struct sdtool_fault_place, INPUT(descriptor));
CALL(sddl_place, struct sdtool_fault_place, INPUT(text), INPUT(domain));
CALL(describe, struct sdtool_outcome, const struct sdtool_outcome *outcome, const struct sdtool_fault_place *place,
     OUTPUT(text));
CALL(check_many, struct sdtool_outcome, const struct sdtool_bytes *descriptors, size_t descriptor_count, INPUT(sids),
     const uint8_t *entries, size_t sid_count, INPUT(object), INPUT(principal_self),
     const struct sdtool_request *request, struct sdtool_verdict *verdicts, size_t verdict_count);
CALL(token_read, struct sdtool_outcome, INPUT(sids), const uint8_t *entries, size_t sid_count, uint32_t *token,
     size_t token_words);
CALL(check_with, struct sdtool_verdict, INPUT(descriptor), const uint32_t *token, size_t token_words, INPUT(object),
     INPUT(principal_self), const struct sdtool_request *request);
CALL(reasons, struct sdtool_outcome, INPUT(descriptor), INPUT(sids), const uint8_t *entries, size_t sid_count,
     INPUT(object), INPUT(principal_self), const struct sdtool_asker *asker, struct sdtool_reason *reasons);
CALL(reasons_with, struct sdtool_outcome, INPUT(descriptor), const uint32_t *token, size_t token_words, INPUT(object),
     INPUT(principal_self), const struct sdtool_asker *asker, struct sdtool_reason *reasons);
CALL(build, struct sdtool_outcome, const struct sdtool_new_descriptor *descriptor, OUTPUT(output));
CALL(edit, struct sdtool_outcome, INPUT(descriptor), const struct sdtool_change *changes, size_t change_count,
     uint32_t *touched, size_t touched_count, OUTPUT(output));
CALL(order, struct sdtool_acl_order, INPUT(descriptor));
CALL(ace_read, struct sdtool_ace, INPUT(bytes));
CALL(ace_from_text, struct sdtool_outcome, INPUT(text), INPUT(domain), OUTPUT(ace));
CALL(ace_to_text, struct sdtool_outcome, INPUT(ace), INPUT(domain), bool numeric, OUTPUT(text));
CALL(rights_from_text, struct sdtool_number, INPUT(text));
CALL(rights_to_text, struct sdtool_outcome, uint32_t mask, bool label, OUTPUT(text));
CALL(flags_from_text, struct sdtool_number, INPUT(text));
CALL(flags_to_text, struct sdtool_outcome, uint32_t flags, OUTPUT(text));
CALL(guid_from_text, struct sdtool_outcome, INPUT(text), OUTPUT(guid));
CALL(guid_to_text, struct sdtool_outcome, INPUT(guid), OUTPUT(text));
CALL(run, struct sdtool_ending, INPUT(words), INPUT(input), OUTPUT(output), OUTPUT(message));
CALL(fault_text, struct sdtool_outcome, uint32_t fault, OUTPUT(text));

static void *at(uint32_t place)
{
    return (void *)(uintptr_t)place;
}

static struct outcome outcome_of(const struct sdtool_outcome *told)
{
    return (struct outcome){told->fault,           told->part, told->other_part, told->argument, (uint32_t)told->entry,
                            (uint32_t)told->length};
}

static void tell(uint32_t place, const struct sdtool_outcome *outcome)
{
    *(struct outcome *)at(place) = outcome_of(outcome);
}

static void tell_no_memory(uint32_t place)
{
    tell(place, &(struct sdtool_outcome){.fault = SDTOOL_NO_MEMORY});
}

static struct verdict verdict_of(const struct sdtool_verdict *told)
{
    return (struct verdict){outcome_of(&told->outcome), told->mask, told->granted};
}

static struct place place_of(const struct sdtool_place *told)
{
    return (struct place){(uint32_t)told->offset, (uint32_t)told->size};
}

static struct ace ace_of(const struct sdtool_ace *told)
{
    return (struct ace){told->fault,
                        told->mask,
                        told->number,
                        told->kind,
                        told->flags,
                        place_of(&told->place),
                        place_of(&told->object_type),
                        place_of(&told->inherited_object_type),
                        place_of(&told->sid)};
}

static struct sdtool_place place_from(const struct place *place)
{
    return (struct sdtool_place){place->offset, place->size};
}

static void tell_place(uint32_t place, const struct sdtool_fault_place *told)
{
    *(struct fault_place *)at(place) = (struct fault_place){told->fault, told->part, told->ace, told->field,
                                                            place_of(&told->place)};
}

static struct acl_place acl_of(const struct sdtool_acl_place *told)
{
    return (struct acl_place){told->state, told->ace_count, place_of(&told->place)};
}

static struct sdtool_bytes bytes_from(const struct bytes *bytes)
{
    return (struct sdtool_bytes){at(bytes->bytes), bytes->size};
}

// The ACEs of an ACL to build, behind one another from TO on.
static struct sdtool_new_acl acl_from(const struct new_acl *acl, struct sdtool_new_ace *to)
{
    const struct new_ace *aces = at(acl->aces);
    for (size_t index = 0; index < acl->ace_count; index++)
        to[index] = (struct sdtool_new_ace){bytes_from(&aces[index].sid),
                                            bytes_from(&aces[index].object_type),
                                            bytes_from(&aces[index].inherited_object_type),
                                            aces[index].mask,
                                            aces[index].kind,
                                            aces[index].flags};
    return (struct sdtool_new_acl){to, acl->ace_count, acl->state};
}

// Room for SIZE bytes, or 0 if there is no memory. SIZE is above 0.
EXPORT(allocate) uint32_t allocate(uint32_t size)
{
    return (uint32_t)(uintptr_t)rattle_find(size);
}

// Gives room back.
EXPORT(release) void release(uint32_t place)
{
    rattle_dealloc(at(place));
}

EXPORT(sdtool_version) void version(uint32_t outcome, uint32_t text, uint32_t text_size)
{
    struct sdtool_outcome told;
    tell(outcome, proved_version(&told, at(text), text_size));
}

EXPORT(sdtool_version_number) uint32_t version_number(void)
{
    return proved_version_number();
}

EXPORT(sdtool_to_sddl)
void to_sddl(uint32_t outcome, uint32_t descriptor, uint32_t descriptor_size, uint32_t domain, uint32_t domain_size,
             uint32_t numeric, uint32_t text, uint32_t text_size)
{
    struct sdtool_outcome told;
    tell(outcome, proved_to_sddl(&told, at(descriptor), descriptor_size, at(domain), domain_size, numeric != 0,
                                 at(text), text_size));
}

EXPORT(sdtool_explain)
void explain(uint32_t outcome, uint32_t descriptor, uint32_t descriptor_size, uint32_t domain, uint32_t domain_size,
             uint32_t numeric, uint32_t text, uint32_t text_size)
{
    struct sdtool_outcome told;
    tell(outcome, proved_explain(&told, at(descriptor), descriptor_size, at(domain), domain_size, numeric != 0,
                                 at(text), text_size));
}

EXPORT(sdtool_normalize)
void normalize(uint32_t outcome, uint32_t descriptor, uint32_t descriptor_size, uint32_t output, uint32_t output_size)
{
    struct sdtool_outcome told;
    tell(outcome, proved_normalize(&told, at(descriptor), descriptor_size, at(output), output_size));
}

EXPORT(sdtool_from_sddl)
void from_sddl(uint32_t outcome, uint32_t text, uint32_t text_size, uint32_t domain, uint32_t domain_size,
               uint32_t output, uint32_t output_size)
{
    struct sdtool_outcome told;
    tell(outcome, proved_from_sddl(&told, at(text), text_size, at(domain), domain_size, at(output), output_size));
}

EXPORT(sdtool_check)
void check(uint32_t verdict, uint32_t descriptor, uint32_t descriptor_size, uint32_t sids, uint32_t sids_size,
           uint32_t entries, uint32_t sid_count, uint32_t object, uint32_t object_size, uint32_t principal_self,
           uint32_t principal_self_size, uint32_t request)
{
    struct sdtool_verdict told;
    proved_check(&told, at(descriptor), descriptor_size, at(sids), sids_size, at(entries), sid_count, at(object),
                 object_size, at(principal_self), principal_self_size, at(request));
    *(struct verdict *)at(verdict) = verdict_of(&told);
}

EXPORT(sdtool_derive)
void derive(uint32_t outcome, uint32_t parent, uint32_t parent_size, uint32_t creator, uint32_t creator_size,
            uint32_t owner, uint32_t owner_size, uint32_t group, uint32_t group_size, uint32_t kind, uint32_t mapping,
            uint32_t output, uint32_t output_size)
{
    struct sdtool_outcome told;
    tell(outcome, proved_derive(&told, at(parent), parent_size, at(creator), creator_size, at(owner), owner_size,
                                at(group), group_size, kind, mapping, at(output), output_size));
}

EXPORT(sdtool_derive_origins)
void derive_origins(uint32_t origins, uint32_t parent, uint32_t parent_size, uint32_t creator, uint32_t creator_size,
                    uint32_t owner, uint32_t owner_size, uint32_t group, uint32_t group_size, uint32_t kind,
                    uint32_t mapping, uint32_t sacl, uint32_t sacl_room, uint32_t dacl, uint32_t dacl_room)
{
    struct sdtool_origins told;
    proved_derive_origins(&told, at(parent), parent_size, at(creator), creator_size, at(owner), owner_size, at(group),
                          group_size, kind, mapping, at(sacl), sacl_room, at(dacl), dacl_room);
    *(struct origins *)at(origins) = (struct origins){outcome_of(&told.outcome), (uint32_t)told.sacl_count,
                                                      (uint32_t)told.dacl_count};
}

EXPORT(sdtool_sid_from_text)
void sid_from_text(uint32_t outcome, uint32_t text, uint32_t text_size, uint32_t domain, uint32_t domain_size,
                   uint32_t sid, uint32_t sid_size)
{
    struct sdtool_outcome told;
    tell(outcome, proved_sid_from_text(&told, at(text), text_size, at(domain), domain_size, at(sid), sid_size));
}

EXPORT(sdtool_sid_to_text)
void sid_to_text(uint32_t outcome, uint32_t sid, uint32_t sid_size, uint32_t domain, uint32_t domain_size,
                 uint32_t numeric, uint32_t text, uint32_t text_size)
{
    struct sdtool_outcome told;
    tell(outcome,
         proved_sid_to_text(&told, at(sid), sid_size, at(domain), domain_size, numeric != 0, at(text), text_size));
}

EXPORT(sdtool_sid_size) uint32_t sid_size(uint32_t bytes, uint32_t bytes_size)
{
    return (uint32_t)proved_sid_size(at(bytes), bytes_size);
}

EXPORT(sdtool_parts) void parts(uint32_t contents, uint32_t descriptor, uint32_t descriptor_size)
{
    struct sdtool_contents told;
    proved_parts(&told, at(descriptor), descriptor_size);
    *(struct contents *)at(contents) = (struct contents){
        outcome_of(&told.outcome), told.control,       told.resource_manager, place_of(&told.owner),
        place_of(&told.group),     acl_of(&told.sacl), acl_of(&told.dacl)};
}

EXPORT(sdtool_next_ace) uint32_t next_ace(uint32_t acl, uint32_t acl_size, uint32_t ace)
{
    struct ace *last = at(ace);
    struct sdtool_ace walk = {last->fault,
                              last->mask,
                              last->number,
                              last->kind,
                              last->flags,
                              place_from(&last->place),
                              place_from(&last->object_type),
                              place_from(&last->inherited_object_type),
                              place_from(&last->sid)};
    bool is_there = proved_next_ace(at(acl), acl_size, &walk);
    *last = ace_of(&walk);
    return is_there;
}

EXPORT(sdtool_ace_read) void ace_read(uint32_t ace, uint32_t bytes, uint32_t bytes_size)
{
    struct sdtool_ace told;
    proved_ace_read(&told, at(bytes), bytes_size);
    *(struct ace *)at(ace) = ace_of(&told);
}

EXPORT(sdtool_ace_from_text)
void ace_from_text(uint32_t outcome, uint32_t text, uint32_t text_size, uint32_t domain, uint32_t domain_size,
                   uint32_t ace, uint32_t ace_size)
{
    struct sdtool_outcome told;
    tell(outcome, proved_ace_from_text(&told, at(text), text_size, at(domain), domain_size, at(ace), ace_size));
}

EXPORT(sdtool_ace_to_text)
void ace_to_text(uint32_t outcome, uint32_t ace, uint32_t ace_size, uint32_t domain, uint32_t domain_size,
                 uint32_t numeric, uint32_t text, uint32_t text_size)
{
    struct sdtool_outcome told;
    tell(outcome,
         proved_ace_to_text(&told, at(ace), ace_size, at(domain), domain_size, numeric != 0, at(text), text_size));
}

static void tell_number(uint32_t place, const struct sdtool_number *told)
{
    *(struct number *)at(place) = (struct number){outcome_of(&told->outcome), told->number};
}

EXPORT(sdtool_rights_from_text) void rights_from_text(uint32_t number, uint32_t text, uint32_t text_size)
{
    struct sdtool_number told;
    tell_number(number, proved_rights_from_text(&told, at(text), text_size));
}

EXPORT(sdtool_rights_to_text)
void rights_to_text(uint32_t outcome, uint32_t mask, uint32_t label, uint32_t text, uint32_t text_size)
{
    struct sdtool_outcome told;
    tell(outcome, proved_rights_to_text(&told, mask, label != 0, at(text), text_size));
}

EXPORT(sdtool_flags_from_text) void flags_from_text(uint32_t number, uint32_t text, uint32_t text_size)
{
    struct sdtool_number told;
    tell_number(number, proved_flags_from_text(&told, at(text), text_size));
}

EXPORT(sdtool_flags_to_text)
void flags_to_text(uint32_t outcome, uint32_t flags, uint32_t text, uint32_t text_size)
{
    struct sdtool_outcome told;
    tell(outcome, proved_flags_to_text(&told, flags, at(text), text_size));
}

EXPORT(sdtool_guid_from_text)
void guid_from_text(uint32_t outcome, uint32_t text, uint32_t text_size, uint32_t guid, uint32_t guid_size)
{
    struct sdtool_outcome told;
    tell(outcome, proved_guid_from_text(&told, at(text), text_size, at(guid), guid_size));
}

EXPORT(sdtool_guid_to_text)
void guid_to_text(uint32_t outcome, uint32_t guid, uint32_t guid_size, uint32_t text, uint32_t text_size)
{
    struct sdtool_outcome told;
    tell(outcome, proved_guid_to_text(&told, at(guid), guid_size, at(text), text_size));
}

EXPORT(sdtool_place) void fault_place(uint32_t place, uint32_t descriptor, uint32_t descriptor_size)
{
    struct sdtool_fault_place told;
    tell_place(place, proved_place(&told, at(descriptor), descriptor_size));
}

EXPORT(sdtool_sddl_place)
void sddl_place(uint32_t place, uint32_t text, uint32_t text_size, uint32_t domain, uint32_t domain_size)
{
    struct sdtool_fault_place told;
    tell_place(place, proved_sddl_place(&told, at(text), text_size, at(domain), domain_size));
}

EXPORT(sdtool_describe)
void describe(uint32_t outcome, uint32_t given, uint32_t place, uint32_t text, uint32_t text_size)
{
    const struct outcome *asked = at(given);
    const struct fault_place *found = at(place);
    struct sdtool_outcome fault = {asked->fault,    asked->part,  asked->other_part,
                                   asked->argument, asked->entry, asked->length};
    struct sdtool_fault_place where = {found->fault, found->part, found->ace, found->field, place_from(&found->place)};
    struct sdtool_outcome told;
    tell(outcome, proved_describe(&told, &fault, &where, at(text), text_size));
}

// It has arrays of its own, with the structs of a 64-bit machine. Without memory for them it is SDTOOL_NO_MEMORY before
// all else, also before SDTOOL_TOO_SMALL.
EXPORT(sdtool_check_many)
void check_many(uint32_t outcome, uint32_t descriptors, uint32_t descriptor_count, uint32_t sids, uint32_t sids_size,
                uint32_t entries, uint32_t sid_count, uint32_t object, uint32_t object_size, uint32_t principal_self,
                uint32_t principal_self_size, uint32_t request, uint32_t verdicts, uint32_t verdict_count)
{
    const struct bytes *given = at(descriptors);
    struct verdict *answers = at(verdicts);
    size_t size_given = (descriptor_count + (size_t)1) * sizeof(struct sdtool_bytes);
    struct sdtool_bytes *asked = rattle_find(size_given + verdict_count * sizeof(struct sdtool_verdict));
    if (!asked) {
        tell_no_memory(outcome);
        return;
    }
    struct sdtool_verdict *told = (struct sdtool_verdict *)((uint8_t *)asked + size_given);
    struct sdtool_outcome ended;
    for (size_t index = 0; index < descriptor_count; index++)
        asked[index] = bytes_from(&given[index]);
    proved_check_many(&ended, asked, descriptor_count, at(sids), sids_size, at(entries), sid_count, at(object),
                      object_size, at(principal_self), principal_self_size, at(request), told, verdict_count);
    if (ended.fault == SDTOOL_OK)
        for (size_t index = 0; index < descriptor_count; index++)
            answers[index] = verdict_of(&told[index]);
    tell(outcome, &ended);
    rattle_dealloc(asked);
}

EXPORT(sdtool_token_read)
void token_read(uint32_t outcome, uint32_t sids, uint32_t sids_size, uint32_t entries, uint32_t sid_count,
                uint32_t token, uint32_t token_words)
{
    struct sdtool_outcome told;
    tell(outcome, proved_token_read(&told, at(sids), sids_size, at(entries), sid_count, at(token), token_words));
}

EXPORT(sdtool_check_with)
void check_with(uint32_t verdict, uint32_t descriptor, uint32_t descriptor_size, uint32_t token, uint32_t token_words,
                uint32_t object, uint32_t object_size, uint32_t principal_self, uint32_t principal_self_size,
                uint32_t request)
{
    struct sdtool_verdict told;
    proved_check_with(&told, at(descriptor), descriptor_size, at(token), token_words, at(object), object_size,
                      at(principal_self), principal_self_size, at(request));
    *(struct verdict *)at(verdict) = verdict_of(&told);
}

EXPORT(sdtool_reasons)
void reasons(uint32_t outcome, uint32_t descriptor, uint32_t descriptor_size, uint32_t sids, uint32_t sids_size,
             uint32_t entries, uint32_t sid_count, uint32_t object, uint32_t object_size, uint32_t principal_self,
             uint32_t principal_self_size, uint32_t asker, uint32_t reasons)
{
    struct sdtool_outcome told;
    tell(outcome,
         proved_reasons(&told, at(descriptor), descriptor_size, at(sids), sids_size, at(entries), sid_count, at(object),
                        object_size, at(principal_self), principal_self_size, at(asker), at(reasons)));
}

EXPORT(sdtool_reasons_with)
void reasons_with(uint32_t outcome, uint32_t descriptor, uint32_t descriptor_size, uint32_t token, uint32_t token_words,
                  uint32_t object, uint32_t object_size, uint32_t principal_self, uint32_t principal_self_size,
                  uint32_t asker, uint32_t reasons)
{
    struct sdtool_outcome told;
    tell(outcome, proved_reasons_with(&told, at(descriptor), descriptor_size, at(token), token_words, at(object),
                                      object_size, at(principal_self), principal_self_size, at(asker), at(reasons)));
}

// As for sdtool_check_many, SDTOOL_NO_MEMORY comes before all else.
EXPORT(sdtool_build) void build(uint32_t outcome, uint32_t descriptor, uint32_t output, uint32_t output_size)
{
    const struct new_descriptor *given = at(descriptor);
    size_t count = (size_t)given->sacl.ace_count + given->dacl.ace_count;
    struct sdtool_new_ace *aces = rattle_find((count + 1) * sizeof(struct sdtool_new_ace));
    if (!aces) {
        tell_no_memory(outcome);
        return;
    }
    struct sdtool_new_descriptor asked = {bytes_from(&given->owner),
                                          bytes_from(&given->group),
                                          acl_from(&given->sacl, aces),
                                          acl_from(&given->dacl, aces + given->sacl.ace_count),
                                          given->control,
                                          given->resource_manager};
    struct sdtool_outcome told;
    tell(outcome, proved_build(&told, &asked, at(output), output_size));
    rattle_dealloc(aces);
}

EXPORT(sdtool_edit)
void edit(uint32_t outcome, uint32_t descriptor, uint32_t descriptor_size, uint32_t changes, uint32_t change_count,
          uint32_t touched, uint32_t touched_count, uint32_t output, uint32_t output_size)
{
    struct sdtool_outcome told;
    tell(outcome, proved_edit(&told, at(descriptor), descriptor_size, at(changes), change_count, at(touched),
                              touched_count, at(output), output_size));
}

EXPORT(sdtool_order) void order(uint32_t order, uint32_t descriptor, uint32_t descriptor_size)
{
    struct sdtool_acl_order told;
    proved_order(&told, at(descriptor), descriptor_size);
    struct acl_order *found = at(order);
    tell(order, &told.outcome);
    found->sacl = told.sacl;
    found->dacl = told.dacl;
}

EXPORT(sdtool_run)
void run(uint32_t ending, uint32_t words, uint32_t words_size, uint32_t input, uint32_t input_size, uint32_t output,
         uint32_t output_size, uint32_t message, uint32_t message_size)
{
    struct sdtool_ending told;
    proved_run(&told, at(words), words_size, at(input), input_size, at(output), output_size, at(message), message_size);
    *(struct ending *)at(ending) = (struct ending){told.status, (uint32_t)told.length, (uint32_t)told.message_length};
}

EXPORT(sdtool_fault_text) void fault_text(uint32_t outcome, uint32_t fault, uint32_t text, uint32_t text_size)
{
    struct sdtool_outcome told;
    tell(outcome, proved_fault_text(&told, fault, at(text), text_size));
}
