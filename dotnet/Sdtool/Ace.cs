using System;

namespace Sdtool
{
    /// <summary>An ACE (MS-DTYP 2.4.4).</summary>
    public sealed unsafe class Ace : BinaryValue<Ace>
    {
        /// <summary>An ACE of these fields. Only the types for objects may have object types.</summary>
        /// <exception cref="ArgumentFaultException">There is no such ACE.</exception>
        public Ace(AceType aceType, AceFlags aceFlags, uint accessMask, Sid sid, Guid? objectAceType = null,
                   Guid? inheritedObjectAceType = null)
            : this(Block.AceOf(aceType, aceFlags, accessMask, sid, objectAceType, inheritedObjectAceType))
        {
        }

        /// <summary>The ACE that a call has found in some bytes.</summary>
        internal Ace(Native.Ace found, byte[] bytes) : base(Answer.Part(bytes, found.place))
        {
            AceType = (AceType)found.kind;
            AceFlags = (AceFlags)found.flags;
            AccessMask = found.mask;
            SecurityIdentifier = Sid.Seen(Answer.Part(bytes, found.sid));
            ObjectAceType = GuidAt(bytes, found.objectType);
            InheritedObjectAceType = GuidAt(bytes, found.inheritedObjectType);
        }

        private Ace(byte[] data) : this(Read(data), data)
        {
        }

        public AceType AceType { get; }

        public AceFlags AceFlags { get; }

        public uint AccessMask { get; }

        /// <summary>The trustee.</summary>
        public Sid SecurityIdentifier { get; }

        public Guid? ObjectAceType { get; }

        public Guid? InheritedObjectAceType { get; }

        public bool IsInherited
        {
            get { return (AceFlags & AceFlags.Inherited) != 0; }
        }

        /// <summary>The ACE of a text in parentheses, such as (A;;FR;;;BU).</summary>
        /// <exception cref="FaultException">The text is no ACE.</exception>
        public static Ace Parse(string sddlForm, Sid domain = null)
        {
            return new Ace(Answer.Read(Loader.Calls.AceFromText.Invoke, Given.Ace(sddlForm, domain)));
        }

        /// <summary>Its text in SDDL, in parentheses.</summary>
        /// <param name="domain">The domain whose aliases are printed, such as DA, or null.</param>
        /// <param name="numeric">Prints no aliases.</param>
        public string GetSddlForm(Sid domain = null, bool numeric = false)
        {
            return Answer.Print(Loader.Calls.AceToText.Invoke, Data, domain, numeric);
        }

        public override string ToString()
        {
            return GetSddlForm();
        }

        internal static byte[] DataOf(Guid? guid)
        {
            return guid.HasValue ? guid.Value.ToByteArray() : null;
        }

        private static Guid? GuidAt(byte[] bytes, Native.Place place)
        {
            byte[] found = Answer.Part(bytes, place);
            return found == null ? (Guid?)null : new Guid(found);
        }

        private static Native.Ace Read(byte[] data)
        {
            fixed (byte* bytes = data)
            {
                Native.Ace found = Loader.Calls.AceRead(bytes, Answer.Size(data));
                if (found.fault != Native.SDTOOL_OK)
                {
                    throw Given.Nothing.Refused(new Native.Outcome { fault = found.fault });
                }
                return found;
            }
        }
    }
}
