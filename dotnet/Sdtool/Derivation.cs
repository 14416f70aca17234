using System;
using System.Collections.Generic;

namespace Sdtool
{
    /// <summary>Where an ACE of a derived descriptor comes from.</summary>
    public sealed class Origin
    {
        internal Origin(Native.Origin told, Acl acl)
        {
            IsFromCreator = told.fromCreator != 0;
            IsInheritOnly = told.inheritOnly != 0;
            Place = told.place;
            Ace = acl[told.place];
        }

        /// <summary>The ACE that it was made of is the creator's; else it is the folder's.</summary>
        public bool IsFromCreator { get; }

        /// <summary>It is the copy for what is made in the new object.</summary>
        public bool IsInheritOnly { get; }

        /// <summary>The index of the ACE that it was made of in its ACL.</summary>
        public int Place { get; }

        /// <summary>The ACE that it was made of.</summary>
        public Ace Ace { get; }
    }

    /// <summary>The origins of the ACEs of a derived descriptor, in their order.</summary>
    public sealed class Origins
    {
        internal Origins(Origin[] sacl, Origin[] dacl)
        {
            SystemAcl = Array.AsReadOnly(sacl);
            DiscretionaryAcl = Array.AsReadOnly(dacl);
        }

        public IReadOnlyList<Origin> SystemAcl { get; }

        public IReadOnlyList<Origin> DiscretionaryAcl { get; }
    }

    /// <summary>What a new object is made of.</summary>
    internal sealed unsafe class Derivation
    {
        private readonly SecurityDescriptor parent;
        private readonly SecurityDescriptor creator;
        private readonly byte[] folder;
        private readonly byte[] brought;
        private readonly byte[] owner;
        private readonly byte[] group;
        private readonly uint kind;
        private readonly uint mapping;

        internal Derivation(SecurityDescriptor parent, Sid owner, Sid group, ObjectKind kind,
                            SecurityDescriptor creator, Mapping mapping)
        {
            this.parent = parent;
            this.creator = creator;
            this.kind = (uint)kind;
            this.mapping = (uint)mapping;
            folder = parent.Data;
            brought = creator == null ? null : creator.Data;
            this.owner = Sid.DataOf(owner) ?? throw new ArgumentNullException(nameof(owner));
            this.group = Sid.DataOf(group) ?? throw new ArgumentNullException(nameof(group));
        }

        internal byte[] Made()
        {
            return Answer.Bytes((output, size) =>
            {
                fixed (byte* bytes = folder, others = brought, owners = owner, groups = group)
                {
                    return Loader.Calls.Derive(bytes, Answer.Size(folder), others, Answer.Size(brought), owners,
                                               Answer.Size(owner), groups, Answer.Size(group), kind, mapping, output,
                                               size);
                }
            }, Given.Descriptor(folder));
        }

        internal Origins Origins()
        {
            var sacl = new Native.Origin[Native.SDTOOL_MOST_DERIVED_ACES];
            var dacl = new Native.Origin[Native.SDTOOL_MOST_DERIVED_ACES];
            Native.Origins told;
            fixed (byte* bytes = folder, others = brought, owners = owner, groups = group)
            fixed (Native.Origin* systemAces = sacl, discretionaryAces = dacl)
            {
                told = Loader.Calls.DeriveOrigins(bytes, Answer.Size(folder), others, Answer.Size(brought), owners,
                                                  Answer.Size(owner), groups, Answer.Size(group), kind, mapping,
                                                  systemAces, (ulong)sacl.Length, discretionaryAces,
                                                  (ulong)dacl.Length);
            }
            if (told.outcome.fault != Native.SDTOOL_OK)
            {
                throw Given.Descriptor(folder).Refused(told.outcome);
            }
            return new Origins(OriginsOf(sacl, told.saclCount, one => one.SystemAcl),
                               OriginsOf(dacl, told.daclCount, one => one.DiscretionaryAcl));
        }

        private Origin[] OriginsOf(Native.Origin[] told, ulong count, Func<SecurityDescriptor, Acl> acl)
        {
            var found = new Origin[count];
            for (int at = 0; at < found.Length; at++)
            {
                found[at] = new Origin(told[at], acl(told[at].fromCreator != 0 ? creator : parent));
            }
            return found;
        }
    }
}
