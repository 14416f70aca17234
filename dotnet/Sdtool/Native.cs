// `make figures` writes this file from include/sdtool.h.
using System;
using System.Runtime.InteropServices;
using System.Security;

namespace Sdtool
{
    /// <summary>The structs, numbers and calls of include/sdtool.h.</summary>
    internal static unsafe class Native
    {
        internal const uint SDTOOL_OK = 0;
        internal const uint SDTOOL_FAULT_TOO_LONG = 1;
        internal const uint SDTOOL_FAULT_HEX_DIGIT = 2;
        internal const uint SDTOOL_FAULT_HEX_ODD = 3;
        internal const uint SDTOOL_FAULT_BASE64 = 4;
        internal const uint SDTOOL_FAULT_SHORT = 5;
        internal const uint SDTOOL_FAULT_REVISION = 6;
        internal const uint SDTOOL_FAULT_NOT_SELF_RELATIVE = 7;
        internal const uint SDTOOL_FAULT_OFFSET = 8;
        internal const uint SDTOOL_FAULT_SID = 9;
        internal const uint SDTOOL_FAULT_ACL = 10;
        internal const uint SDTOOL_FAULT_ACE_SIZE = 11;
        internal const uint SDTOOL_FAULT_ACE_TYPE = 12;
        internal const uint SDTOOL_FAULT_ACE_FLAGS = 13;
        internal const uint SDTOOL_FAULT_OVERLAP = 14;
        internal const uint SDTOOL_FAULT_SHAPE = 20;
        internal const uint SDTOOL_FAULT_PART_TWICE = 21;
        internal const uint SDTOOL_FAULT_ALIAS = 22;
        internal const uint SDTOOL_FAULT_NEEDS_DOMAIN = 23;
        internal const uint SDTOOL_FAULT_NUMBER = 24;
        internal const uint SDTOOL_FAULT_SID_FORM = 25;
        internal const uint SDTOOL_FAULT_FLAGS = 26;
        internal const uint SDTOOL_FAULT_RIGHTS = 27;
        internal const uint SDTOOL_FAULT_GUID = 28;
        internal const uint SDTOOL_FAULT_KIND = 29;
        internal const uint SDTOOL_FAULT_ACL_TOO_LARGE = 30;
        internal const uint SDTOOL_FAULT_DERIVED_TOO_LARGE = 40;
        internal const uint SDTOOL_FAULT_EMPTY_REQUEST = 50;
        internal const uint SDTOOL_FAULT_RESERVED_BITS = 51;
        internal const uint SDTOOL_FAULT_READ = 60;
        internal const uint SDTOOL_FAULT_WRITE = 61;
        internal const uint SDTOOL_FAULT_TOO_MANY_READS = 62;
        internal const uint SDTOOL_ARGUMENT = 70;
        internal const uint SDTOOL_TOO_SMALL = 71;
        internal const uint SDTOOL_NO_MEMORY = 72;
        internal const uint SDTOOL_CHANGE = 73;
        internal const uint SDTOOL_NO_ARGUMENT = 0;
        internal const uint SDTOOL_ARGUMENT_DOMAIN = 1;
        internal const uint SDTOOL_ARGUMENT_SIDS = 2;
        internal const uint SDTOOL_ARGUMENT_ENTRIES = 3;
        internal const uint SDTOOL_ARGUMENT_OBJECT = 4;
        internal const uint SDTOOL_ARGUMENT_PRINCIPAL_SELF = 5;
        internal const uint SDTOOL_ARGUMENT_MAPPING = 6;
        internal const uint SDTOOL_ARGUMENT_CREATOR = 7;
        internal const uint SDTOOL_ARGUMENT_OWNER = 8;
        internal const uint SDTOOL_ARGUMENT_GROUP = 9;
        internal const uint SDTOOL_ARGUMENT_KIND = 10;
        internal const uint SDTOOL_ARGUMENT_FAULT = 11;
        internal const uint SDTOOL_ARGUMENT_SID = 12;
        internal const uint SDTOOL_ARGUMENT_SACL = 13;
        internal const uint SDTOOL_ARGUMENT_DACL = 14;
        internal const uint SDTOOL_ARGUMENT_TOKEN = 15;
        internal const uint SDTOOL_ARGUMENT_CHANGES = 16;
        internal const uint SDTOOL_ARGUMENT_OPTIONS = 17;
        internal const uint SDTOOL_ARGUMENT_ACE = 18;
        internal const uint SDTOOL_ARGUMENT_FLAGS = 19;
        internal const uint SDTOOL_ARGUMENT_GUID = 20;
        internal const uint SDTOOL_ARGUMENT_OFFSETS = 21;
        internal const uint SDTOOL_ARGUMENT_CONVERSION = 22;
        internal const uint SDTOOL_NO_PART = 0;
        internal const uint SDTOOL_OWNER = 1;
        internal const uint SDTOOL_GROUP = 2;
        internal const uint SDTOOL_SACL = 3;
        internal const uint SDTOOL_DACL = 4;
        internal const uint SDTOOL_MAPPING_FILE = 0;
        internal const uint SDTOOL_MAPPING_KEY = 1;
        internal const uint SDTOOL_MAPPING_DS = 2;
        internal const uint SDTOOL_KIND_FILE = 0;
        internal const uint SDTOOL_KIND_CONTAINER = 1;
        internal const uint SDTOOL_ENABLED = 0;
        internal const uint SDTOOL_DENY_ONLY = 1;
        internal const uint SDTOOL_MOST_BYTES = 131226;
        internal const uint SDTOOL_MOST_TEXT = 1049872;
        internal const uint SDTOOL_MOST_SIDS = 1024;
        internal const uint SDTOOL_MOST_SID = 68;
        internal const uint SDTOOL_MOST_SID_TEXT = 183;
        internal const uint SDTOOL_MOST_ACE = 112;
        internal const uint SDTOOL_MOST_ACE_TEXT = 312;
        internal const uint SDTOOL_MOST_FAULT_TEXT = 32;
        internal const uint SDTOOL_MOST_DESCRIPTION = 512;
        internal const uint SDTOOL_MOST_MESSAGE = 64;
        internal const uint SDTOOL_HAS_LEVEL = 1;
        internal const uint SDTOOL_SECURITY = 2;
        internal const uint SDTOOL_TAKE_OWNERSHIP = 4;
        internal const uint SDTOOL_MAXIMUM = 1;
        internal const uint SDTOOL_MOST_DERIVED_ACES = 4095;
        internal const uint SDTOOL_ACL_ABSENT = 0;
        internal const uint SDTOOL_ACL_NULL = 1;
        internal const uint SDTOOL_ACL_LIST = 2;
        internal const uint SDTOOL_NO_FIELD = 0;
        internal const uint SDTOOL_FIELD_KIND = 1;
        internal const uint SDTOOL_FIELD_FLAGS = 2;
        internal const uint SDTOOL_FIELD_RIGHTS = 3;
        internal const uint SDTOOL_FIELD_OBJECT_TYPE = 4;
        internal const uint SDTOOL_FIELD_INHERITED_OBJECT_TYPE = 5;
        internal const uint SDTOOL_FIELD_SID = 6;
        internal const uint SDTOOL_FIELD_SIZE = 7;
        internal const uint SDTOOL_CONVERT_TO_SDDL = 0;
        internal const uint SDTOOL_CONVERT_FROM_SDDL = 1;
        internal const uint SDTOOL_CONVERT_NORMALIZE = 2;
        internal const uint SDTOOL_NUMERIC = 1;
        internal const uint SDTOOL_REASON_NOTHING = 0;
        internal const uint SDTOOL_REASON_LABEL = 1;
        internal const uint SDTOOL_REASON_NO_DACL = 2;
        internal const uint SDTOOL_REASON_OWNER = 3;
        internal const uint SDTOOL_REASON_PRIVILEGE = 4;
        internal const uint SDTOOL_REASON_GRANTED = 5;
        internal const uint SDTOOL_REASON_DENIED = 6;
        internal const uint SDTOOL_RIGHTS = 25;
        internal const uint SDTOOL_NO_PLACE = 65535;
        internal const uint SDTOOL_PUT = 1;
        internal const uint SDTOOL_TAKE = 2;
        internal const uint SDTOOL_REPLACE = 3;
        internal const uint SDTOOL_TAKE_EACH = 4;
        internal const uint SDTOOL_SET_EACH = 5;
        internal const uint SDTOOL_ORDER = 6;
        internal const uint SDTOOL_STATE = 7;
        internal const uint SDTOOL_SET_OWNER = 8;
        internal const uint SDTOOL_SET_GROUP = 9;
        internal const uint SDTOOL_CONTROL = 10;
        internal const uint SDTOOL_COMPARE_KIND = 1;
        internal const uint SDTOOL_COMPARE_MASK = 2;
        internal const uint SDTOOL_TYPE_UNUSED = 0;
        internal const uint SDTOOL_TYPE_NONE = 1;
        internal const uint SDTOOL_TYPE_GIVEN = 2;
        internal const uint SDTOOL_MOST_CHANGES = 16384;
        internal const uint SDTOOL_STATUS_ANSWERED = 0;
        internal const uint SDTOOL_STATUS_ERRORS = 1;
        internal const uint SDTOOL_STATUS_USAGE = 2;
        internal const uint SDTOOL_STATUS_STOPPED = 3;
        internal const uint SDTOOL_STATUS_NO_MEMORY = 4;
        internal const uint SDTOOL_AT_END = 4294967295;
        internal const uint SDTOOL_BY_ORDER = 4294967294;
        internal const uint SDTOOL_NO_ACE = 4294967295;
        internal const uint SDTOOL_VERSION = 100;
        internal const uint SDTOOL_TEXT_SIZE_FIRST = 64;
        internal const uint SDTOOL_TEXT_SIZE_EACH = 8;
        internal const uint SDTOOL_TOKEN_WORDS_FIRST = 2;
        internal const uint SDTOOL_TOKEN_WORDS_EACH = 20;

        [StructLayout(LayoutKind.Sequential)]
        internal struct Outcome
        {
            internal uint fault;
            internal uint part;
            internal uint otherPart;
            internal uint argument;
            internal ulong entry;
            internal ulong length;
        }

        [StructLayout(LayoutKind.Sequential)]
        internal struct Asker
        {
            internal uint mapping;
            internal uint level;
            internal uint options;
        }

        [StructLayout(LayoutKind.Sequential)]
        internal struct Request
        {
            internal Asker asker;
            internal uint wanted;
            internal uint options;
        }

        [StructLayout(LayoutKind.Sequential)]
        internal struct Verdict
        {
            internal Outcome outcome;
            internal uint mask;
            internal byte granted;
        }

        [StructLayout(LayoutKind.Sequential)]
        internal struct Origin
        {
            internal ushort place;
            internal byte fromCreator;
            internal byte inheritOnly;
        }

        [StructLayout(LayoutKind.Sequential)]
        internal struct Origins
        {
            internal Outcome outcome;
            internal ulong saclCount;
            internal ulong daclCount;
        }

        [StructLayout(LayoutKind.Sequential)]
        internal struct Place
        {
            internal ulong offset;
            internal ulong size;
        }

        [StructLayout(LayoutKind.Sequential)]
        internal struct AclPlace
        {
            internal uint state;
            internal uint aceCount;
            internal Place place;
        }

        [StructLayout(LayoutKind.Sequential)]
        internal struct Contents
        {
            internal Outcome outcome;
            internal ushort control;
            internal byte resourceManager;
            internal Place owner;
            internal Place group;
            internal AclPlace sacl;
            internal AclPlace dacl;
        }

        [StructLayout(LayoutKind.Sequential)]
        internal struct FaultPlace
        {
            internal uint fault;
            internal uint part;
            internal uint ace;
            internal uint field;
            internal Place place;
        }

        [StructLayout(LayoutKind.Sequential)]
        internal struct Ace
        {
            internal uint fault;
            internal uint mask;
            internal uint number;
            internal byte kind;
            internal byte flags;
            internal Place place;
            internal Place objectType;
            internal Place inheritedObjectType;
            internal Place sid;
        }

        [StructLayout(LayoutKind.Sequential)]
        internal struct Number
        {
            internal Outcome outcome;
            internal uint number;
        }

        [StructLayout(LayoutKind.Sequential)]
        internal struct Bytes
        {
            internal byte* bytes;
            internal ulong size;
        }

        [StructLayout(LayoutKind.Sequential)]
        internal struct Column
        {
            internal Bytes data;
            internal uint* offsets;
            internal ulong offsetCount;
        }

        [StructLayout(LayoutKind.Sequential)]
        internal struct LargeColumn
        {
            internal Bytes data;
            internal ulong* offsets;
            internal ulong offsetCount;
        }

        [StructLayout(LayoutKind.Sequential)]
        internal struct ColumnCheck
        {
            internal Column descriptors;
            internal Bytes sids;
            internal Bytes entries;
            internal Bytes @object;
            internal Bytes principalSelf;
            internal Request request;
        }

        [StructLayout(LayoutKind.Sequential)]
        internal struct LargeColumnCheck
        {
            internal LargeColumn descriptors;
            internal Bytes sids;
            internal Bytes entries;
            internal Bytes @object;
            internal Bytes principalSelf;
            internal Request request;
        }

        [StructLayout(LayoutKind.Sequential)]
        internal struct Conversion
        {
            internal Bytes data;
            internal uint* offsets;
            internal ulong offsetCount;
            internal Bytes domain;
            internal ulong begin;
            internal uint kind;
            internal uint options;
        }

        [StructLayout(LayoutKind.Sequential)]
        internal struct LargeConversion
        {
            internal Bytes data;
            internal ulong* offsets;
            internal ulong offsetCount;
            internal Bytes domain;
            internal ulong begin;
            internal uint kind;
            internal uint options;
        }

        [StructLayout(LayoutKind.Sequential)]
        internal struct Creation
        {
            internal Bytes creator;
            internal Bytes owner;
            internal Bytes group;
            internal uint kind;
            internal uint mapping;
        }

        [StructLayout(LayoutKind.Sequential)]
        internal struct Derivation
        {
            internal Column parents;
            internal Creation creation;
            internal ulong begin;
        }

        [StructLayout(LayoutKind.Sequential)]
        internal struct LargeDerivation
        {
            internal LargeColumn parents;
            internal Creation creation;
            internal ulong begin;
        }

        [StructLayout(LayoutKind.Sequential)]
        internal struct Reason
        {
            internal ushort kind;
            internal ushort place;
        }

        [StructLayout(LayoutKind.Sequential)]
        internal struct NewAce
        {
            internal Bytes sid;
            internal Bytes objectType;
            internal Bytes inheritedObjectType;
            internal uint mask;
            internal byte kind;
            internal byte flags;
        }

        [StructLayout(LayoutKind.Sequential)]
        internal struct NewAcl
        {
            internal NewAce* aces;
            internal ulong aceCount;
            internal uint state;
        }

        [StructLayout(LayoutKind.Sequential)]
        internal struct NewDescriptor
        {
            internal Bytes owner;
            internal Bytes group;
            internal NewAcl sacl;
            internal NewAcl dacl;
            internal ushort control;
            internal byte resourceManager;
        }

        [StructLayout(LayoutKind.Sequential)]
        internal struct Change
        {
            internal uint kind;
            internal uint part;
            internal uint place;
            internal uint compare;
            internal uint mask;
            internal uint setMask;
            internal uint clearMask;
            internal ushort setControl;
            internal ushort clearControl;
            internal byte aceKind;
            internal byte flags;
            internal byte flagsMask;
            internal byte setFlags;
            internal byte clearFlags;
            internal byte state;
            internal byte objectTypeUse;
            internal byte inheritedObjectTypeUse;
            internal fixed byte objectType[16];
            internal fixed byte inheritedObjectType[16];
            internal fixed byte sid[68];
            internal fixed byte setSid[68];
        }

        [StructLayout(LayoutKind.Sequential)]
        internal struct AclOrder
        {
            internal Outcome outcome;
            internal uint sacl;
            internal uint dacl;
        }

        [StructLayout(LayoutKind.Sequential)]
        internal struct Ending
        {
            internal uint status;
            internal ulong length;
            internal ulong messageLength;
        }

        [UnmanagedFunctionPointer(CallingConvention.Cdecl), SuppressUnmanagedCodeSecurity]
        internal delegate Outcome VersionCall(byte* text, ulong textSize);

        [UnmanagedFunctionPointer(CallingConvention.Cdecl), SuppressUnmanagedCodeSecurity]
        internal delegate uint VersionNumberCall();

        [UnmanagedFunctionPointer(CallingConvention.Cdecl), SuppressUnmanagedCodeSecurity]
        internal delegate Outcome ToSddlCall(byte* descriptor, ulong descriptorSize, byte* domain, ulong domainSize,
                                             byte numeric, byte* text, ulong textSize);

        [UnmanagedFunctionPointer(CallingConvention.Cdecl), SuppressUnmanagedCodeSecurity]
        internal delegate Outcome ExplainCall(byte* descriptor, ulong descriptorSize, byte* domain, ulong domainSize,
                                              byte numeric, byte* text, ulong textSize);

        [UnmanagedFunctionPointer(CallingConvention.Cdecl), SuppressUnmanagedCodeSecurity]
        internal delegate Outcome NormalizeCall(byte* descriptor, ulong descriptorSize, byte* output, ulong outputSize);

        [UnmanagedFunctionPointer(CallingConvention.Cdecl), SuppressUnmanagedCodeSecurity]
        internal delegate Outcome FromSddlCall(byte* text, ulong textSize, byte* domain, ulong domainSize, byte* output,
                                               ulong outputSize);

        [UnmanagedFunctionPointer(CallingConvention.Cdecl), SuppressUnmanagedCodeSecurity]
        internal delegate Verdict CheckCall(byte* descriptor, ulong descriptorSize, byte* sids, ulong sidsSize,
                                            byte* entries, ulong sidCount, byte* @object, ulong objectSize,
                                            byte* principalSelf, ulong principalSelfSize, Request* request);

        [UnmanagedFunctionPointer(CallingConvention.Cdecl), SuppressUnmanagedCodeSecurity]
        internal delegate Outcome DeriveCall(byte* parent, ulong parentSize, byte* creator, ulong creatorSize,
                                             byte* owner, ulong ownerSize, byte* group, ulong groupSize, uint kind,
                                             uint mapping, byte* output, ulong outputSize);

        [UnmanagedFunctionPointer(CallingConvention.Cdecl), SuppressUnmanagedCodeSecurity]
        internal delegate Origins DeriveOriginsCall(byte* parent, ulong parentSize, byte* creator, ulong creatorSize,
                                                    byte* owner, ulong ownerSize, byte* group, ulong groupSize,
                                                    uint kind, uint mapping, Origin* sacl, ulong saclRoom, Origin* dacl,
                                                    ulong daclRoom);

        [UnmanagedFunctionPointer(CallingConvention.Cdecl), SuppressUnmanagedCodeSecurity]
        internal delegate Outcome SidFromTextCall(byte* text, ulong textSize, byte* domain, ulong domainSize, byte* sid,
                                                  ulong sidSize);

        [UnmanagedFunctionPointer(CallingConvention.Cdecl), SuppressUnmanagedCodeSecurity]
        internal delegate Outcome SidToTextCall(byte* sid, ulong sidSize, byte* domain, ulong domainSize, byte numeric,
                                                byte* text, ulong textSize);

        [UnmanagedFunctionPointer(CallingConvention.Cdecl), SuppressUnmanagedCodeSecurity]
        internal delegate ulong SidSizeCall(byte* bytes, ulong bytesSize);

        [UnmanagedFunctionPointer(CallingConvention.Cdecl), SuppressUnmanagedCodeSecurity]
        internal delegate Contents PartsCall(byte* descriptor, ulong descriptorSize);

        [UnmanagedFunctionPointer(CallingConvention.Cdecl), SuppressUnmanagedCodeSecurity]
        internal delegate FaultPlace PlaceCall(byte* descriptor, ulong descriptorSize);

        [UnmanagedFunctionPointer(CallingConvention.Cdecl), SuppressUnmanagedCodeSecurity]
        internal delegate FaultPlace SddlPlaceCall(byte* text, ulong textSize, byte* domain, ulong domainSize);

        [UnmanagedFunctionPointer(CallingConvention.Cdecl), SuppressUnmanagedCodeSecurity]
        internal delegate Outcome DescribeCall(Outcome* outcome, FaultPlace* place, byte* text, ulong textSize);

        [UnmanagedFunctionPointer(CallingConvention.Cdecl), SuppressUnmanagedCodeSecurity]
        internal delegate byte NextAceCall(byte* acl, ulong aclSize, Ace* ace);

        [UnmanagedFunctionPointer(CallingConvention.Cdecl), SuppressUnmanagedCodeSecurity]
        internal delegate Ace AceReadCall(byte* bytes, ulong bytesSize);

        [UnmanagedFunctionPointer(CallingConvention.Cdecl), SuppressUnmanagedCodeSecurity]
        internal delegate Outcome AceFromTextCall(byte* text, ulong textSize, byte* domain, ulong domainSize, byte* ace,
                                                  ulong aceSize);

        [UnmanagedFunctionPointer(CallingConvention.Cdecl), SuppressUnmanagedCodeSecurity]
        internal delegate Outcome AceToTextCall(byte* ace, ulong aceSize, byte* domain, ulong domainSize, byte numeric,
                                                byte* text, ulong textSize);

        [UnmanagedFunctionPointer(CallingConvention.Cdecl), SuppressUnmanagedCodeSecurity]
        internal delegate Number RightsFromTextCall(byte* text, ulong textSize);

        [UnmanagedFunctionPointer(CallingConvention.Cdecl), SuppressUnmanagedCodeSecurity]
        internal delegate Outcome RightsToTextCall(uint mask, byte label, byte* text, ulong textSize);

        [UnmanagedFunctionPointer(CallingConvention.Cdecl), SuppressUnmanagedCodeSecurity]
        internal delegate Number FlagsFromTextCall(byte* text, ulong textSize);

        [UnmanagedFunctionPointer(CallingConvention.Cdecl), SuppressUnmanagedCodeSecurity]
        internal delegate Outcome FlagsToTextCall(uint flags, byte* text, ulong textSize);

        [UnmanagedFunctionPointer(CallingConvention.Cdecl), SuppressUnmanagedCodeSecurity]
        internal delegate Outcome GuidFromTextCall(byte* text, ulong textSize, byte* guid, ulong guidSize);

        [UnmanagedFunctionPointer(CallingConvention.Cdecl), SuppressUnmanagedCodeSecurity]
        internal delegate Outcome GuidToTextCall(byte* guid, ulong guidSize, byte* text, ulong textSize);

        [UnmanagedFunctionPointer(CallingConvention.Cdecl), SuppressUnmanagedCodeSecurity]
        internal delegate Outcome CheckManyCall(Bytes* descriptors, ulong descriptorCount, byte* sids, ulong sidsSize,
                                                byte* entries, ulong sidCount, byte* @object, ulong objectSize,
                                                byte* principalSelf, ulong principalSelfSize, Request* request,
                                                Verdict* verdicts, ulong verdictCount);

        [UnmanagedFunctionPointer(CallingConvention.Cdecl), SuppressUnmanagedCodeSecurity]
        internal delegate Outcome CheckColumnCall(ColumnCheck* check, Verdict* verdicts, ulong verdictCount);

        [UnmanagedFunctionPointer(CallingConvention.Cdecl), SuppressUnmanagedCodeSecurity]
        internal delegate Outcome CheckColumnLargeCall(LargeColumnCheck* check, Verdict* verdicts, ulong verdictCount);

        [UnmanagedFunctionPointer(CallingConvention.Cdecl), SuppressUnmanagedCodeSecurity]
        internal delegate Outcome ConvertManyCall(Conversion* conversion, byte* @out, ulong outSize, uint* outOffsets,
                                                  ulong outOffsetCount, Outcome* outcomes, ulong outcomeCount);

        [UnmanagedFunctionPointer(CallingConvention.Cdecl), SuppressUnmanagedCodeSecurity]
        internal delegate Outcome ConvertManyLargeCall(LargeConversion* conversion, byte* @out, ulong outSize,
                                                       ulong* outOffsets, ulong outOffsetCount, Outcome* outcomes,
                                                       ulong outcomeCount);

        [UnmanagedFunctionPointer(CallingConvention.Cdecl), SuppressUnmanagedCodeSecurity]
        internal delegate Outcome DeriveManyCall(Derivation* derivation, byte* @out, ulong outSize, uint* outOffsets,
                                                 ulong outOffsetCount, Outcome* outcomes, ulong outcomeCount);

        [UnmanagedFunctionPointer(CallingConvention.Cdecl), SuppressUnmanagedCodeSecurity]
        internal delegate Outcome DeriveManyLargeCall(LargeDerivation* derivation, byte* @out, ulong outSize,
                                                      ulong* outOffsets, ulong outOffsetCount, Outcome* outcomes,
                                                      ulong outcomeCount);

        [UnmanagedFunctionPointer(CallingConvention.Cdecl), SuppressUnmanagedCodeSecurity]
        internal delegate Outcome TokenReadCall(byte* sids, ulong sidsSize, byte* entries, ulong sidCount, uint* token,
                                                ulong tokenWords);

        [UnmanagedFunctionPointer(CallingConvention.Cdecl), SuppressUnmanagedCodeSecurity]
        internal delegate Verdict CheckWithCall(byte* descriptor, ulong descriptorSize, uint* token, ulong tokenWords,
                                                byte* @object, ulong objectSize, byte* principalSelf,
                                                ulong principalSelfSize, Request* request);

        [UnmanagedFunctionPointer(CallingConvention.Cdecl), SuppressUnmanagedCodeSecurity]
        internal delegate Outcome ReasonsCall(byte* descriptor, ulong descriptorSize, byte* sids, ulong sidsSize,
                                              byte* entries, ulong sidCount, byte* @object, ulong objectSize,
                                              byte* principalSelf, ulong principalSelfSize, Asker* asker,
                                              Reason* reasons);

        [UnmanagedFunctionPointer(CallingConvention.Cdecl), SuppressUnmanagedCodeSecurity]
        internal delegate Outcome ReasonsWithCall(byte* descriptor, ulong descriptorSize, uint* token, ulong tokenWords,
                                                  byte* @object, ulong objectSize, byte* principalSelf,
                                                  ulong principalSelfSize, Asker* asker, Reason* reasons);

        [UnmanagedFunctionPointer(CallingConvention.Cdecl), SuppressUnmanagedCodeSecurity]
        internal delegate Outcome BuildCall(NewDescriptor* descriptor, byte* output, ulong outputSize);

        [UnmanagedFunctionPointer(CallingConvention.Cdecl), SuppressUnmanagedCodeSecurity]
        internal delegate Outcome EditCall(byte* descriptor, ulong descriptorSize, Change* changes, ulong changeCount,
                                           uint* touched, ulong touchedCount, byte* output, ulong outputSize);

        [UnmanagedFunctionPointer(CallingConvention.Cdecl), SuppressUnmanagedCodeSecurity]
        internal delegate AclOrder OrderCall(byte* descriptor, ulong descriptorSize);

        [UnmanagedFunctionPointer(CallingConvention.Cdecl), SuppressUnmanagedCodeSecurity]
        internal delegate Ending RunCall(byte* words, ulong wordsSize, byte* input, ulong inputSize, byte* output,
                                         ulong outputSize, byte* message, ulong messageSize);

        [UnmanagedFunctionPointer(CallingConvention.Cdecl), SuppressUnmanagedCodeSecurity]
        internal delegate Outcome FaultTextCall(uint fault, byte* text, ulong textSize);

        /// <summary>The calls of a library.</summary>
        internal sealed class Calls
        {
            internal readonly VersionCall Version;
            internal readonly VersionNumberCall VersionNumber;
            internal readonly ToSddlCall ToSddl;
            internal readonly ExplainCall Explain;
            internal readonly NormalizeCall Normalize;
            internal readonly FromSddlCall FromSddl;
            internal readonly CheckCall Check;
            internal readonly DeriveCall Derive;
            internal readonly DeriveOriginsCall DeriveOrigins;
            internal readonly SidFromTextCall SidFromText;
            internal readonly SidToTextCall SidToText;
            internal readonly SidSizeCall SidSize;
            internal readonly PartsCall Parts;
            internal readonly PlaceCall Place;
            internal readonly SddlPlaceCall SddlPlace;
            internal readonly DescribeCall Describe;
            internal readonly NextAceCall NextAce;
            internal readonly AceReadCall AceRead;
            internal readonly AceFromTextCall AceFromText;
            internal readonly AceToTextCall AceToText;
            internal readonly RightsFromTextCall RightsFromText;
            internal readonly RightsToTextCall RightsToText;
            internal readonly FlagsFromTextCall FlagsFromText;
            internal readonly FlagsToTextCall FlagsToText;
            internal readonly GuidFromTextCall GuidFromText;
            internal readonly GuidToTextCall GuidToText;
            internal readonly CheckManyCall CheckMany;
            internal readonly CheckColumnCall CheckColumn;
            internal readonly CheckColumnLargeCall CheckColumnLarge;
            internal readonly ConvertManyCall ConvertMany;
            internal readonly ConvertManyLargeCall ConvertManyLarge;
            internal readonly DeriveManyCall DeriveMany;
            internal readonly DeriveManyLargeCall DeriveManyLarge;
            internal readonly TokenReadCall TokenRead;
            internal readonly CheckWithCall CheckWith;
            internal readonly ReasonsCall Reasons;
            internal readonly ReasonsWithCall ReasonsWith;
            internal readonly BuildCall Build;
            internal readonly EditCall Edit;
            internal readonly OrderCall Order;
            internal readonly RunCall Run;
            internal readonly FaultTextCall FaultText;

            /// <summary>FIND gives the address of a name, or throws.</summary>
            internal Calls(Func<string, IntPtr> find)
            {
                Version = Bound<VersionCall>(find("sdtool_version"));
                VersionNumber = Bound<VersionNumberCall>(find("sdtool_version_number"));
                ToSddl = Bound<ToSddlCall>(find("sdtool_to_sddl"));
                Explain = Bound<ExplainCall>(find("sdtool_explain"));
                Normalize = Bound<NormalizeCall>(find("sdtool_normalize"));
                FromSddl = Bound<FromSddlCall>(find("sdtool_from_sddl"));
                Check = Bound<CheckCall>(find("sdtool_check"));
                Derive = Bound<DeriveCall>(find("sdtool_derive"));
                DeriveOrigins = Bound<DeriveOriginsCall>(find("sdtool_derive_origins"));
                SidFromText = Bound<SidFromTextCall>(find("sdtool_sid_from_text"));
                SidToText = Bound<SidToTextCall>(find("sdtool_sid_to_text"));
                SidSize = Bound<SidSizeCall>(find("sdtool_sid_size"));
                Parts = Bound<PartsCall>(find("sdtool_parts"));
                Place = Bound<PlaceCall>(find("sdtool_place"));
                SddlPlace = Bound<SddlPlaceCall>(find("sdtool_sddl_place"));
                Describe = Bound<DescribeCall>(find("sdtool_describe"));
                NextAce = Bound<NextAceCall>(find("sdtool_next_ace"));
                AceRead = Bound<AceReadCall>(find("sdtool_ace_read"));
                AceFromText = Bound<AceFromTextCall>(find("sdtool_ace_from_text"));
                AceToText = Bound<AceToTextCall>(find("sdtool_ace_to_text"));
                RightsFromText = Bound<RightsFromTextCall>(find("sdtool_rights_from_text"));
                RightsToText = Bound<RightsToTextCall>(find("sdtool_rights_to_text"));
                FlagsFromText = Bound<FlagsFromTextCall>(find("sdtool_flags_from_text"));
                FlagsToText = Bound<FlagsToTextCall>(find("sdtool_flags_to_text"));
                GuidFromText = Bound<GuidFromTextCall>(find("sdtool_guid_from_text"));
                GuidToText = Bound<GuidToTextCall>(find("sdtool_guid_to_text"));
                CheckMany = Bound<CheckManyCall>(find("sdtool_check_many"));
                CheckColumn = Bound<CheckColumnCall>(find("sdtool_check_column"));
                CheckColumnLarge = Bound<CheckColumnLargeCall>(find("sdtool_check_column_large"));
                ConvertMany = Bound<ConvertManyCall>(find("sdtool_convert_many"));
                ConvertManyLarge = Bound<ConvertManyLargeCall>(find("sdtool_convert_many_large"));
                DeriveMany = Bound<DeriveManyCall>(find("sdtool_derive_many"));
                DeriveManyLarge = Bound<DeriveManyLargeCall>(find("sdtool_derive_many_large"));
                TokenRead = Bound<TokenReadCall>(find("sdtool_token_read"));
                CheckWith = Bound<CheckWithCall>(find("sdtool_check_with"));
                Reasons = Bound<ReasonsCall>(find("sdtool_reasons"));
                ReasonsWith = Bound<ReasonsWithCall>(find("sdtool_reasons_with"));
                Build = Bound<BuildCall>(find("sdtool_build"));
                Edit = Bound<EditCall>(find("sdtool_edit"));
                Order = Bound<OrderCall>(find("sdtool_order"));
                Run = Bound<RunCall>(find("sdtool_run"));
                FaultText = Bound<FaultTextCall>(find("sdtool_fault_text"));
            }

            private static T Bound<T>(IntPtr address)
            {
                return Marshal.GetDelegateForFunctionPointer<T>(address);
            }
        }
    }
}
