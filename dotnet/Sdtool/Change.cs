using System;
using System.Collections.Generic;
using System.Runtime.InteropServices;

namespace Sdtool
{
    /// <summary>A descriptor after changes, and how many ACEs each of them put, took or set.</summary>
    public sealed class Edited
    {
        internal Edited(SecurityDescriptor descriptor, int[] touched)
        {
            Descriptor = descriptor;
            Touched = Array.AsReadOnly(touched);
        }

        public SecurityDescriptor Descriptor { get; }

        public IReadOnlyList<int> Touched { get; }
    }

    /// <summary>What a match compares of an object type: nothing, a GUID, or that there is none.</summary>
    public struct TypeMatch
    {
        /// <summary>The ACE must have none.</summary>
        public static readonly TypeMatch None = new TypeMatch(Native.SDTOOL_TYPE_NONE, null);
        internal readonly uint Use;
        internal readonly Guid? Type;

        public TypeMatch(Guid type) : this(Native.SDTOOL_TYPE_GIVEN, type)
        {
        }

        private TypeMatch(uint use, Guid? type)
        {
            Use = use;
            Type = type;
        }
    }

    /// <summary>Which ACEs a change is about: those that agree in all that is given, at least one thing.</summary>
    public sealed class Match
    {
        internal Native.Change Members;

        /// <param name="sid">The trustee, or null.</param>
        /// <param name="aceType">The type of the ACE, or null.</param>
        /// <param name="accessMask">The whole mask, or null.</param>
        /// <param name="flags">The flags that an ACE has among those of the mask of flags, and no others.</param>
        /// <param name="flagsMask">The flags that are compared.</param>
        /// <param name="objectType">The object type.</param>
        /// <param name="inheritedObjectType">The inherited object type.</param>
        public unsafe Match(Sid sid = null, AceType? aceType = null, uint? accessMask = null,
                            AceFlags flags = AceFlags.None, AceFlags flagsMask = AceFlags.None,
                            TypeMatch objectType = default(TypeMatch),
                            TypeMatch inheritedObjectType = default(TypeMatch))
        {
            Members.compare = (aceType.HasValue ? Native.SDTOOL_COMPARE_KIND : 0) |
                              (accessMask.HasValue ? Native.SDTOOL_COMPARE_MASK : 0);
            Members.aceKind = (byte)aceType.GetValueOrDefault();
            Members.mask = accessMask.GetValueOrDefault();
            Members.flags = (byte)flags;
            Members.flagsMask = (byte)flagsMask;
            Members.objectTypeUse = (byte)objectType.Use;
            Members.inheritedObjectTypeUse = (byte)inheritedObjectType.Use;
            fixed (Native.Change* change = &Members)
            {
                Change.Copy(Sid.DataOf(sid), change->sid);
                Change.Copy(Ace.DataOf(objectType.Type), change->objectType);
                Change.Copy(Ace.DataOf(inheritedObjectType.Type), change->inheritedObjectType);
            }
        }
    }

    /// <summary>What ACEs get: another SID, and bits of mask and flags that are set and cleared.</summary>
    public sealed class Setting
    {
        internal readonly Sid Trustee;
        internal readonly uint SetMask;
        internal readonly uint ClearMask;
        internal readonly AceFlags SetFlags;
        internal readonly AceFlags ClearFlags;

        /// <param name="sid">The SID that the ACEs get, or null.</param>
        /// <param name="setMask">Bits of the mask to set.</param>
        /// <param name="clearMask">Bits of the mask to clear, others than those.</param>
        /// <param name="setFlags">Flags to set.</param>
        /// <param name="clearFlags">Flags to clear, others than those.</param>
        public Setting(Sid sid = null, uint setMask = 0, uint clearMask = 0, AceFlags setFlags = AceFlags.None,
                       AceFlags clearFlags = AceFlags.None)
        {
            Trustee = sid;
            SetMask = setMask;
            ClearMask = clearMask;
            SetFlags = setFlags;
            ClearFlags = clearFlags;
        }
    }

    /// <summary>
    /// A change, for <see cref="SecurityDescriptor.Edit"/>. An ACL is <see cref="Part.DiscretionaryAcl"/> or
    /// <see cref="Part.SystemAcl"/>. An edit refuses a change that is none. Its binary form is that of C.
    /// </summary>
    public sealed unsafe class Change : BinaryValue<Change>
    {
        private Change(Native.Change members) : base(new byte[sizeof(Native.Change)])
        {
            Marshal.Copy((IntPtr)(&members), Data, 0, Data.Length);
        }

        /// <summary>An ACE gets a place, from 0 to the number of ACEs.</summary>
        public static Change Put(Part acl, int place, Ace ace)
        {
            return OfAce(Native.SDTOOL_PUT, acl, PlaceOf(place), ace);
        }

        public static Change PutAtEnd(Part acl, Ace ace)
        {
            return OfAce(Native.SDTOOL_PUT, acl, Native.SDTOOL_AT_END, ace);
        }

        /// <summary>An ACE gets the place behind the last one of no higher rank.</summary>
        public static Change PutByOrder(Part acl, Ace ace)
        {
            return OfAce(Native.SDTOOL_PUT, acl, Native.SDTOOL_BY_ORDER, ace);
        }

        /// <summary>The ACE at a place goes.</summary>
        public static Change Take(Part acl, int place)
        {
            uint where = PlaceOf(place);
            return new Change(new Native.Change { kind = Native.SDTOOL_TAKE, part = (uint)acl, place = where });
        }

        /// <summary>Another ACE stands at a place.</summary>
        public static Change Replace(Part acl, int place, Ace ace)
        {
            return OfAce(Native.SDTOOL_REPLACE, acl, PlaceOf(place), ace);
        }

        /// <summary>Each ACE that matches goes.</summary>
        public static Change TakeEach(Part acl, Match match)
        {
            return new Change(Matching(Native.SDTOOL_TAKE_EACH, acl, match));
        }

        /// <summary>Each ACE that matches gets another SID or other bits.</summary>
        public static Change SetEach(Part acl, Match match, Setting setting)
        {
            if (setting == null)
            {
                throw new ArgumentNullException(nameof(setting));
            }
            Native.Change members = Matching(Native.SDTOOL_SET_EACH, acl, match);
            members.setMask = setting.SetMask;
            members.clearMask = setting.ClearMask;
            members.setFlags = (byte)setting.SetFlags;
            members.clearFlags = (byte)setting.ClearFlags;
            Copy(Sid.DataOf(setting.Trustee), members.setSid);
            return new Change(members);
        }

        /// <summary>The ACEs come into order, those of one rank as they stood.</summary>
        public static Change Order(Part acl)
        {
            return new Change(new Native.Change { kind = Native.SDTOOL_ORDER, part = (uint)acl });
        }

        /// <summary>The ACL becomes absent, null, or a list without ACEs.</summary>
        public static Change State(Part acl, AclState state)
        {
            if (state < AclState.Absent || state > AclState.List)
            {
                throw new ArgumentOutOfRangeException(nameof(state));
            }
            return new Change(new Native.Change { kind = Native.SDTOOL_STATE, part = (uint)acl, state = (byte)state });
        }

        /// <summary>The owner becomes a SID, or with null there is none.</summary>
        public static Change Owner(Sid sid)
        {
            return OfSid(Native.SDTOOL_SET_OWNER, sid);
        }

        /// <summary>The group becomes a SID, or with null there is none.</summary>
        public static Change Group(Sid sid)
        {
            return OfSid(Native.SDTOOL_SET_GROUP, sid);
        }

        /// <summary>Control bits are set and cleared: all but 0x8000, 0x10 and 0x4.</summary>
        public static Change Control(ControlFlags set = ControlFlags.None, ControlFlags clear = ControlFlags.None)
        {
            return new Change(new Native.Change
            {
                kind = Native.SDTOOL_CONTROL,
                setControl = Block.Word(set, nameof(set)),
                clearControl = Block.Word(clear, nameof(clear))
            });
        }

        internal static Edited Made(byte[] descriptor, Change[] changes)
        {
            byte[] given = Joined(changes);
            var touched = new uint[changes.Length];
            byte[] layout = Answer.Bytes((output, size) =>
            {
                fixed (byte* bytes = descriptor, all = given)
                fixed (uint* counts = touched)
                {
                    return Loader.Calls.Edit(bytes, Answer.Size(descriptor), (Native.Change*)all, (ulong)changes.Length,
                                             counts, (ulong)touched.Length, output, size);
                }
            }, Given.Descriptor(descriptor));
            return new Edited(SecurityDescriptor.Of(layout), Array.ConvertAll(touched, one => (int)one));
        }

        internal static void Copy(byte[] from, byte* to)
        {
            if (from != null)
            {
                Marshal.Copy(from, 0, (IntPtr)to, from.Length);
            }
        }

        private static byte[] Joined(Change[] changes)
        {
            if (changes == null || Array.IndexOf(changes, null) >= 0)
            {
                throw new ArgumentNullException(nameof(changes));
            }
            var all = new byte[changes.Length * sizeof(Native.Change)];
            for (int at = 0; at < changes.Length; at++)
            {
                changes[at].Data.CopyTo(all, at * sizeof(Native.Change));
            }
            return all;
        }

        private static uint PlaceOf(int place)
        {
            if (place < 0)
            {
                throw new ArgumentOutOfRangeException(nameof(place));
            }
            return (uint)place;
        }

        private static Change OfAce(uint kind, Part acl, uint place, Ace ace)
        {
            if (ReferenceEquals(ace, null))
            {
                throw new ArgumentNullException(nameof(ace));
            }
            var members = new Native.Change
            {
                kind = kind,
                part = (uint)acl,
                place = place,
                mask = ace.AccessMask,
                aceKind = (byte)ace.AceType,
                flags = (byte)ace.AceFlags,
                objectTypeUse = UseOf(ace.ObjectAceType),
                inheritedObjectTypeUse = UseOf(ace.InheritedObjectAceType)
            };
            Copy(ace.SecurityIdentifier.Data, members.sid);
            Copy(Ace.DataOf(ace.ObjectAceType), members.objectType);
            Copy(Ace.DataOf(ace.InheritedObjectAceType), members.inheritedObjectType);
            return new Change(members);
        }

        private static byte UseOf(Guid? type)
        {
            return (byte)(type.HasValue ? Native.SDTOOL_TYPE_GIVEN : Native.SDTOOL_TYPE_UNUSED);
        }

        private static Change OfSid(uint kind, Sid sid)
        {
            var members = new Native.Change { kind = kind };
            Copy(Sid.DataOf(sid), members.sid);
            return new Change(members);
        }

        private static Native.Change Matching(uint kind, Part acl, Match match)
        {
            if (match == null)
            {
                throw new ArgumentNullException(nameof(match));
            }
            Native.Change members = match.Members;
            members.kind = kind;
            members.part = (uint)acl;
            return members;
        }
    }
}
