using System;

namespace Sdtool
{
    /// <summary>A SID (MS-DTYP 2.4.2).</summary>
    public sealed unsafe class Sid : BinaryValue<Sid>
    {
        private string text;

        /// <summary>The SID of a text: S-1- and numbers, or an alias such as BA.</summary>
        /// <exception cref="FaultException">The text is no SID.</exception>
        public Sid(string sddlForm) : this(sddlForm, null)
        {
        }

        /// <summary>The same, where aliases of a domain are known, such as DA.</summary>
        public Sid(string sddlForm, Sid domain)
            : this(Answer.Read(Loader.Calls.SidFromText.Invoke, Given.Sid(sddlForm, domain)), true)
        {
        }

        /// <summary>The SID that begins at an offset of some bytes.</summary>
        /// <exception cref="ArgumentFaultException">No SID begins there.</exception>
        public Sid(byte[] binaryForm, int offset) : this(At(binaryForm, offset), true)
        {
        }

        /// <summary>The SID that some bytes are, without any behind it.</summary>
        /// <exception cref="ArgumentFaultException">They are none.</exception>
        public Sid(byte[] binaryForm) : this(binaryForm, 0)
        {
            if (BinaryLength != binaryForm.Length)
            {
                throw None();
            }
        }

        private Sid(byte[] data, bool _) : base(data)
        {
        }

        /// <summary>Its text as S-1- and numbers.</summary>
        public string Value
        {
            get { return text ?? (text = Text(null, true)); }
        }

        /// <summary>Its two letters in SDDL, or null.</summary>
        public string Alias
        {
            get { return GetAlias(null); }
        }

        /// <summary>Its two letters in SDDL, those of a domain too, or null.</summary>
        public string GetAlias(Sid domain)
        {
            string shown = Text(domain, false);
            return shown.StartsWith("S-", StringComparison.Ordinal) ? null : shown;
        }

        public override string ToString()
        {
            return Value;
        }

        internal static byte[] DataOf(Sid sid)
        {
            return ReferenceEquals(sid, null) ? null : sid.Data;
        }

        /// <summary>The SID of bytes that the library has seen, or null if there are none.</summary>
        internal static Sid Seen(byte[] data)
        {
            return data == null ? null : new Sid(data, true);
        }

        private static Exception None()
        {
            return Given.Nothing.Refused(new Native.Outcome
            {
                fault = Native.SDTOOL_ARGUMENT,
                argument = Native.SDTOOL_ARGUMENT_SID
            });
        }

        private static byte[] At(byte[] binaryForm, int offset)
        {
            if (binaryForm == null)
            {
                throw new ArgumentNullException(nameof(binaryForm));
            }
            if (offset < 0 || offset > binaryForm.Length)
            {
                throw new ArgumentOutOfRangeException(nameof(offset));
            }
            fixed (byte* bytes = binaryForm)
            {
                ulong size = Loader.Calls.SidSize(bytes + offset, (ulong)(binaryForm.Length - offset));
                if (size == 0)
                {
                    throw None();
                }
                return Answer.Part(binaryForm, offset, (int)size);
            }
        }

        private string Text(Sid domain, bool isNumeric)
        {
            return Answer.Print(Loader.Calls.SidToText.Invoke, Data, domain, isNumeric);
        }
    }
}
