using System;

namespace Sdtool
{
    /// <summary>The texts that SDDL has for parts of an ACE.</summary>
    public static unsafe class Sddl
    {
        /// <summary>The access mask of rights, such as FRWD or 0x1f01ff; 0 for the empty text.</summary>
        /// <exception cref="FaultException">They are not in the tables.</exception>
        public static uint ParseRights(string text)
        {
            byte[] given = Answer.Utf8(text, nameof(text));
            fixed (byte* bytes = given)
            {
                return NumberOf(Loader.Calls.RightsFromText(bytes, Answer.Size(given)));
            }
        }

        /// <summary>The rights of an access mask, as those of a mandatory label or of any other ACE.</summary>
        public static string FormatRights(uint accessMask, bool isLabel = false)
        {
            return Answer.Text((text, size) =>
                Loader.Calls.RightsToText(accessMask, Answer.Flag(isLabel), text, size));
        }

        /// <summary>The flags of an ACE, such as OICI; none for the empty text.</summary>
        /// <exception cref="FaultException">They are not in the table.</exception>
        public static AceFlags ParseFlags(string text)
        {
            byte[] given = Answer.Utf8(text, nameof(text));
            fixed (byte* bytes = given)
            {
                return (AceFlags)NumberOf(Loader.Calls.FlagsFromText(bytes, Answer.Size(given)));
            }
        }

        /// <exception cref="ArgumentFaultException">There is another bit among them.</exception>
        public static string FormatFlags(AceFlags aceFlags)
        {
            return Answer.Text((text, size) => Loader.Calls.FlagsToText((uint)aceFlags, text, size));
        }

        /// <summary>The GUID of 36 characters.</summary>
        /// <exception cref="FaultException">The text is none.</exception>
        public static Guid ParseGuid(string text)
        {
            byte[] given = Answer.Utf8(text, nameof(text));
            return new Guid(Answer.Bytes((output, size) =>
            {
                fixed (byte* bytes = given)
                {
                    return Loader.Calls.GuidFromText(bytes, Answer.Size(given), output, size);
                }
            }, Given.Nothing));
        }

        public static string FormatGuid(Guid guid)
        {
            byte[] given = guid.ToByteArray();
            return Answer.Text((text, size) =>
            {
                fixed (byte* bytes = given)
                {
                    return Loader.Calls.GuidToText(bytes, Answer.Size(given), text, size);
                }
            });
        }

        private static uint NumberOf(Native.Number told)
        {
            if (told.outcome.fault != Native.SDTOOL_OK)
            {
                throw Given.Nothing.Refused(told.outcome);
            }
            return told.number;
        }
    }
}
