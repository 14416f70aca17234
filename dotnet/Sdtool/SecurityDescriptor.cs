using System;
using System.Collections.Generic;

namespace Sdtool
{
    /// <summary>
    /// A security descriptor (MS-DTYP 2.4.6). Its binary form is its canonical layout. A descriptor whose DACL is
    /// absent or null grants everything.
    /// </summary>
    public sealed unsafe class SecurityDescriptor : BinaryValue<SecurityDescriptor>
    {
        private volatile Parts parts;

        /// <summary>The descriptor of a text of SDDL. The empty text is a descriptor without parts.</summary>
        /// <exception cref="FaultException">The text is no SDDL.</exception>
        public SecurityDescriptor(string sddlForm) : this(sddlForm, null)
        {
        }

        /// <summary>The same, where aliases of a domain are known, such as DA.</summary>
        public SecurityDescriptor(string sddlForm, Sid domain)
            : this(Answer.Read(Loader.Calls.FromSddl.Invoke, Given.Sddl(sddlForm, domain)), true)
        {
        }

        /// <summary>The descriptor of some bytes, in whatever layout.</summary>
        /// <exception cref="FaultException">The bytes are no descriptor.</exception>
        public SecurityDescriptor(byte[] binaryForm) : this(Normal(binaryForm), true)
        {
        }

        /// <summary>The descriptor of the bytes from an offset to the end.</summary>
        /// <exception cref="FaultException">The bytes are no descriptor.</exception>
        public SecurityDescriptor(byte[] binaryForm, int offset) : this(From(binaryForm, offset))
        {
        }

        /// <summary>
        /// A descriptor of these parts. An ACL is a list, <see cref="Acl.Null"/> or <see cref="Acl.Absent"/>; an owner
        /// and a group may be null. The bits that say which parts there are follow from the parts.
        /// </summary>
        /// <exception cref="FaultException">An ACL would exceed 65,535 bytes.</exception>
        public SecurityDescriptor(ControlFlags flags, Sid owner, Sid group, Acl systemAcl, Acl discretionaryAcl,
                                  byte resourceManagerControl = 0)
            : this(Block.Build(flags, resourceManagerControl, owner, group, systemAcl, discretionaryAcl), true)
        {
        }

        private SecurityDescriptor(byte[] layout, bool _) : base(layout)
        {
        }

        public ControlFlags ControlFlags
        {
            get { return Found.Control; }
        }

        public byte ResourceManagerControl
        {
            get { return Found.ResourceManager; }
        }

        /// <summary>The owner, or null.</summary>
        public Sid Owner
        {
            get { return Found.Owner; }
        }

        /// <summary>The primary group, or null.</summary>
        public Sid Group
        {
            get { return Found.Group; }
        }

        public Acl SystemAcl
        {
            get { return Found.SystemAcl; }
        }

        public Acl DiscretionaryAcl
        {
            get { return Found.DiscretionaryAcl; }
        }

        /// <summary>Where the order of its ACLs ends.</summary>
        public AclOrder Order
        {
            get
            {
                fixed (byte* bytes = Data)
                {
                    Native.AclOrder told = Loader.Calls.Order(bytes, Answer.Size(Data));
                    if (told.outcome.fault != Native.SDTOOL_OK)
                    {
                        throw Given.Descriptor(Data).Refused(told.outcome);
                    }
                    return new AclOrder(told);
                }
            }
        }

        private Parts Found
        {
            get { return parts ?? (parts = new Parts(Data)); }
        }

        /// <summary>Its text. SDDL has none for the resource manager byte and for some control bits.</summary>
        /// <param name="domain">The domain whose aliases are printed, such as DA, or null.</param>
        /// <param name="numeric">Prints no aliases.</param>
        public string GetSddlForm(Sid domain = null, bool numeric = false)
        {
            return Answer.Print(Loader.Calls.ToSddl.Invoke, Data, domain, numeric);
        }

        /// <summary>The lines that 'sdtool explain' prints.</summary>
        /// <param name="domain">The domain whose aliases are printed, such as DA, or null.</param>
        /// <param name="numeric">Prints no aliases.</param>
        public string Explain(Sid domain = null, bool numeric = false)
        {
            return Answer.Print(Loader.Calls.Explain.Invoke, Data, domain, numeric);
        }

        /// <summary>Whether it grants a token what is wanted. A <see cref="Checker"/> is for many checks.</summary>
        /// <param name="token">Who asks.</param>
        /// <param name="wanted">An access mask. It may be 0 with <paramref name="maximum"/>.</param>
        /// <param name="maximum">Asks also for each right that is granted.</param>
        /// <param name="mapping">What the generic rights stand for.</param>
        /// <param name="objectType">The object type of a check in a directory.</param>
        /// <param name="principalSelf">The SID that PRINCIPAL SELF stands for.</param>
        /// <exception cref="FaultException">No right is asked for, or a reserved one.</exception>
        public Verdict Check(Token token, uint wanted, bool maximum = false, Mapping mapping = Mapping.File,
                             Guid? objectType = null, Sid principalSelf = null)
        {
            return new Checker(token, wanted, maximum, mapping, objectType, principalSelf).Check(this);
        }

        /// <summary>Why a token has each of the rights 0 to 24 or not, by its place in a mask.</summary>
        public IReadOnlyList<Reason> GetReasons(Token token, Mapping mapping = Mapping.File, Guid? objectType = null,
                                                Sid principalSelf = null)
        {
            return new Checker(token, 0, true, mapping, objectType, principalSelf).GetReasons(this);
        }

        /// <summary>The descriptor of a new object in a folder that has this one.</summary>
        /// <param name="owner">The owner of the new object.</param>
        /// <param name="group">Its group.</param>
        /// <param name="kind">Whether it is a file or a container.</param>
        /// <param name="creator">The descriptor that the creator brings, or null.</param>
        /// <param name="mapping">What the generic rights stand for.</param>
        /// <exception cref="FaultException">An ACL would exceed 65,535 bytes.</exception>
        public SecurityDescriptor Derive(Sid owner, Sid group, ObjectKind kind = ObjectKind.File,
                                         SecurityDescriptor creator = null, Mapping mapping = Mapping.File)
        {
            return Of(new Derivation(this, owner, group, kind, creator, mapping).Made());
        }

        /// <summary>Where each ACE comes from of what <see cref="Derive"/> gives for the same arguments.</summary>
        public Origins GetOrigins(Sid owner, Sid group, ObjectKind kind = ObjectKind.File,
                                  SecurityDescriptor creator = null, Mapping mapping = Mapping.File)
        {
            return new Derivation(this, owner, group, kind, creator, mapping).Origins();
        }

        /// <summary>The descriptor after changes that are made one after the other.</summary>
        /// <exception cref="FaultException">A change can't be made; Index says which.</exception>
        /// <exception cref="ArgumentFaultException">A change is none; Index says which.</exception>
        public Edited Edit(params Change[] changes)
        {
            return Change.Made(Data, changes);
        }

        public override string ToString()
        {
            return GetSddlForm();
        }

        /// <summary>The descriptor of a canonical layout.</summary>
        internal static SecurityDescriptor Of(byte[] layout)
        {
            return new SecurityDescriptor(layout, true);
        }

        private static byte[] Normal(byte[] binaryForm)
        {
            if (binaryForm == null)
            {
                throw new ArgumentNullException(nameof(binaryForm));
            }
            return Answer.Bytes((output, size) =>
            {
                fixed (byte* bytes = binaryForm)
                {
                    return Loader.Calls.Normalize(bytes, Answer.Size(binaryForm), output, size);
                }
            }, Given.Descriptor(binaryForm));
        }

        private static byte[] From(byte[] binaryForm, int offset)
        {
            if (binaryForm == null)
            {
                throw new ArgumentNullException(nameof(binaryForm));
            }
            if (offset < 0 || offset > binaryForm.Length)
            {
                throw new ArgumentOutOfRangeException(nameof(offset));
            }
            return Answer.Part(binaryForm, offset, binaryForm.Length - offset);
        }

        private sealed class Parts
        {
            internal readonly ControlFlags Control;
            internal readonly byte ResourceManager;
            internal readonly Sid Owner;
            internal readonly Sid Group;
            internal readonly Acl SystemAcl;
            internal readonly Acl DiscretionaryAcl;

            internal Parts(byte[] data)
            {
                Native.Contents found;
                fixed (byte* bytes = data)
                {
                    found = Loader.Calls.Parts(bytes, Answer.Size(data));
                }
                if (found.outcome.fault != Native.SDTOOL_OK)
                {
                    throw Given.Descriptor(data).Refused(found.outcome);
                }
                Control = (ControlFlags)found.control;
                ResourceManager = found.resourceManager;
                Owner = Sid.Seen(Answer.Part(data, found.owner));
                Group = Sid.Seen(Answer.Part(data, found.group));
                SystemAcl = Acl.At(data, found.sacl);
                DiscretionaryAcl = Acl.At(data, found.dacl);
            }
        }
    }

    /// <summary>Of each ACL the place of the first ACE whose rank is below that of the one before, or null.</summary>
    public struct AclOrder
    {
        internal AclOrder(Native.AclOrder told) : this()
        {
            SystemAcl = PlaceOf(told.sacl);
            DiscretionaryAcl = PlaceOf(told.dacl);
        }

        public int? SystemAcl { get; }

        public int? DiscretionaryAcl { get; }

        private static int? PlaceOf(uint ace)
        {
            return ace == Native.SDTOOL_NO_ACE ? (int?)null : (int)ace;
        }
    }
}
