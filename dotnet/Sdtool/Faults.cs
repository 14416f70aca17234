using System;

namespace Sdtool
{
    /// <summary>Where a fault is in what was given, the bytes of a descriptor or a text.</summary>
    public sealed class Place
    {
        internal Place(Part part, int? ace, Field field, int offset, int size)
        {
            Part = part;
            Ace = ace;
            Field = field;
            Offset = offset;
            Size = size;
        }

        public Part Part { get; }

        /// <summary>The index of the ACE in its part, if it is in one.</summary>
        public int? Ace { get; }

        public Field Field { get; }

        /// <summary>The first byte, or the first char of a text.</summary>
        public int Offset { get; }

        /// <summary>0 where something is missing.</summary>
        public int Size { get; }
    }

    /// <summary>
    /// An input has no answer: bytes that are no descriptor, text that is no SDDL, a change that can't be made. So what
    /// it grants is unknown, and never granted. The message says what is wrong and where: bytes count from 0 there,
    /// those of a text in UTF-8, and ACEs from 1.
    /// </summary>
    public sealed class FaultException : Exception
    {
        internal readonly Native.Outcome Outcome;
        internal readonly Given Given;
        private string message;

        internal FaultException(Native.Outcome outcome, Given given)
        {
            Outcome = outcome;
            Given = given;
        }

        /// <summary>The number of docs/FORMAT.md. A later library may have more of them.</summary>
        public int Number
        {
            get { return (int)Outcome.fault; }
        }

        /// <summary>The name of that number, such as sid-form.</summary>
        public string Name
        {
            get { return Library.FaultName(Number); }
        }

        public Part Part
        {
            get { return (Part)Outcome.part; }
        }

        /// <summary>The second part of fault 14, two parts that overlap.</summary>
        public Part OtherPart
        {
            get { return (Part)Outcome.otherPart; }
        }

        /// <summary>With a change that can't be made its index.</summary>
        public int? Index
        {
            get { return Outcome.argument == Native.SDTOOL_NO_ARGUMENT ? (int?)null : (int)Outcome.entry; }
        }

        /// <summary>Where the fault is in the bytes or the text that was given, or null.</summary>
        public Place Place
        {
            get { return Given.PlaceOf(Outcome.fault); }
        }

        public override string Message
        {
            get { return message ?? (message = Given.Describe(Outcome)); }
        }
    }

    /// <summary>A call doesn't take an argument. It says nothing about a descriptor.</summary>
    public sealed class ArgumentFaultException : ArgumentException
    {
        internal readonly Native.Outcome Outcome;

        internal ArgumentFaultException(Native.Outcome outcome)
            : this(outcome, Given.Nothing.Describe(outcome), NameOf(outcome.argument))
        {
        }

        internal ArgumentFaultException(Native.Outcome outcome, string message, string name) : base(message, name)
        {
            Outcome = outcome;
        }

        private static string NameOf(uint argument)
        {
            switch (argument)
            {
                case Native.SDTOOL_ARGUMENT_DOMAIN: return "domain";
                case Native.SDTOOL_ARGUMENT_SIDS: return "sids";
                case Native.SDTOOL_ARGUMENT_ENTRIES: return "sids";
                case Native.SDTOOL_ARGUMENT_OBJECT: return "objectType";
                case Native.SDTOOL_ARGUMENT_PRINCIPAL_SELF: return "principalSelf";
                case Native.SDTOOL_ARGUMENT_MAPPING: return "mapping";
                case Native.SDTOOL_ARGUMENT_CREATOR: return "creator";
                case Native.SDTOOL_ARGUMENT_OWNER: return "owner";
                case Native.SDTOOL_ARGUMENT_GROUP: return "group";
                case Native.SDTOOL_ARGUMENT_KIND: return "kind";
                case Native.SDTOOL_ARGUMENT_FAULT: return "number";
                case Native.SDTOOL_ARGUMENT_SID: return "sid";
                case Native.SDTOOL_ARGUMENT_SACL: return "systemAcl";
                case Native.SDTOOL_ARGUMENT_DACL: return "discretionaryAcl";
                case Native.SDTOOL_ARGUMENT_TOKEN: return "token";
                case Native.SDTOOL_ARGUMENT_CHANGES: return "changes";
                case Native.SDTOOL_ARGUMENT_OPTIONS: return "privileges";
                case Native.SDTOOL_ARGUMENT_ACE: return "ace";
                case Native.SDTOOL_ARGUMENT_FLAGS: return "aceFlags";
                case Native.SDTOOL_ARGUMENT_GUID: return "guid";
                case Native.SDTOOL_ARGUMENT_OFFSETS: return "offsets";
                case Native.SDTOOL_ARGUMENT_CONVERSION: return "conversion";
                default: return null;
            }
        }

        /// <summary>Which entry of a list it is, from 0.</summary>
        public int Index
        {
            get { return (int)Outcome.entry; }
        }
    }

    /// <summary>A null or an absent ACL has no list of ACEs: a DACL of these grants everything.</summary>
    public sealed class NoAcesException : InvalidOperationException
    {
        internal NoAcesException(AclState state)
            : base("the ACL is " + state + ", which is no list of ACEs: ask IsList")
        {
        }
    }

    /// <summary>What a call was given, which says where its fault is.</summary>
    internal sealed unsafe class Given
    {
        internal static readonly Given Nothing = new Given(Form.Nothing, null, null);
        internal readonly byte[] Data;
        internal readonly byte[] Domain;
        // What makes a descriptor of the text of an ACE.
        private static readonly byte[] Head = { (byte)'D', (byte)':' };
        private readonly Form form;

        private Given(Form form, byte[] data, byte[] domain)
        {
            this.form = form;
            Data = data;
            Domain = domain;
        }

        private enum Form
        {
            Nothing,
            Descriptor,
            Sddl,
            Ace
        }

        internal static Given Descriptor(byte[] data)
        {
            return new Given(Form.Descriptor, data, null);
        }

        internal static Given Sddl(string sddlForm, Sid domain)
        {
            return Text(Form.Sddl, sddlForm, domain);
        }

        internal static Given Sddl(byte[] sddlForm, byte[] domain)
        {
            return new Given(Form.Sddl, sddlForm, domain);
        }

        internal static Given Ace(string sddlForm, Sid domain)
        {
            return Text(Form.Ace, sddlForm, domain);
        }

        /// <summary>The text of a SID, which is all where its fault is.</summary>
        internal static Given Sid(string sddlForm, Sid domain)
        {
            return Text(Form.Nothing, sddlForm, domain);
        }

        /// <summary>The exception for a fault.</summary>
        internal Exception Refused(Native.Outcome outcome)
        {
            if (outcome.fault == Native.SDTOOL_NO_MEMORY)
            {
                return new InsufficientMemoryException();
            }
            if (outcome.fault == Native.SDTOOL_ARGUMENT)
            {
                return new ArgumentFaultException(outcome);
            }
            return Fault(outcome);
        }

        /// <summary>The same where it is known to be no argument's. A caller may change its bytes later.</summary>
        internal FaultException Fault(Native.Outcome outcome)
        {
            return new FaultException(outcome, new Given(form, (byte[])Data?.Clone(), Domain));
        }

        internal string Describe(Native.Outcome outcome)
        {
            Native.FaultPlace place = Find();
            return Answer.Text((text, size) =>
            {
                Native.Outcome told = outcome;
                Native.FaultPlace found = place;
                return Loader.Calls.Describe(&told, &found, text, size);
            });
        }

        internal Place PlaceOf(uint fault)
        {
            Native.FaultPlace found = Find();
            if (found.fault != fault)
            {
                return null;
            }
            int begin = (int)found.place.offset, end = begin + (int)found.place.size;
            if (form != Form.Descriptor)
            {
                begin = Characters(begin);
                end = Characters(end);
            }
            int? ace = found.ace == Native.SDTOOL_NO_ACE ? (int?)null : (int)found.ace;
            return new Place((Part)found.part, ace, (Field)found.field, begin, end - begin);
        }

        internal Native.FaultPlace Find()
        {
            switch (form)
            {
                case Form.Descriptor:
                    fixed (byte* bytes = Data)
                    {
                        return Loader.Calls.Place(bytes, Answer.Size(Data));
                    }
                case Form.Sddl:
                    return FindIn(Data);
                case Form.Ace:
                    return OfAce(FindIn(BehindHead(Data)));
                default:
                    return default(Native.FaultPlace);
            }
        }

        private static Given Text(Form form, string sddlForm, Sid domain)
        {
            return new Given(form, Answer.Utf8(sddlForm, nameof(sddlForm)), Sdtool.Sid.DataOf(domain));
        }

        private static byte[] BehindHead(byte[] text)
        {
            var whole = new byte[Head.Length + text.Length];
            Head.CopyTo(whole, 0);
            text.CopyTo(whole, Head.Length);
            return whole;
        }

        /// <summary>A place in the text of an ACE, which was given without the head in front of it.</summary>
        private static Native.FaultPlace OfAce(Native.FaultPlace found)
        {
            found.place.offset -= Math.Min(found.place.offset, (ulong)Head.Length);
            // A second head is in the text itself.
            if (found.part == Native.SDTOOL_DACL && found.fault != Native.SDTOOL_FAULT_PART_TWICE)
            {
                found.part = Native.SDTOOL_NO_PART;
                found.ace = Native.SDTOOL_NO_ACE;
            }
            return found;
        }

        private Native.FaultPlace FindIn(byte[] text)
        {
            fixed (byte* bytes = text, domain = Domain)
            {
                return Loader.Calls.SddlPlace(bytes, Answer.Size(text), domain, Answer.Size(Domain));
            }
        }

        /// <summary>How many chars begin in the first bytes of a text in UTF-8.</summary>
        private int Characters(int bytes)
        {
            int count = 0;
            for (int at = 0; at < bytes && at < Data.Length; at++)
            {
                count += Data[at] >= 0xf0 ? 2 : (Data[at] & 0xc0) == 0x80 ? 0 : 1;
            }
            return count;
        }
    }
}
