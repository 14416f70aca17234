using System;
using System.Text;

namespace Sdtool
{
    /// <summary>Calls that write to memory of the caller.</summary>
    internal static unsafe class Answer
    {
        private const int FirstSize = 4096; // larger answers take a second call
        [ThreadStatic]
        private static byte[] room;

        internal delegate Native.Outcome Writing(byte* output, ulong size);

        /// <summary>A call that reads a text under a domain, or bytes.</summary>
        internal delegate Native.Outcome Reading(byte* text, ulong textSize, byte* domain, ulong domainSize,
                                                 byte* output, ulong size);

        /// <summary>A call that gives a text of bytes.</summary>
        internal delegate Native.Outcome Printing(byte* data, ulong dataSize, byte* domain, ulong domainSize,
                                                  byte numeric, byte* text, ulong size);

        internal static byte[] Bytes(Writing write, Given given)
        {
            byte[] written;
            int length = Written(write, given, out written);
            return Part(written, 0, length);
        }

        internal static string Text(Writing write)
        {
            byte[] written;
            int length = Written(write, Given.Nothing, out written);
            return Encoding.UTF8.GetString(written, 0, length);
        }

        internal static byte[] Read(Reading call, Given given)
        {
            return Bytes((output, size) =>
            {
                fixed (byte* text = given.Data, domain = given.Domain)
                {
                    return call(text, Size(given.Data), domain, Size(given.Domain), output, size);
                }
            }, given);
        }

        internal static string Print(Printing call, byte[] data, Sid domain, bool isNumeric)
        {
            byte[] of = Sid.DataOf(domain);
            return Text((text, size) =>
            {
                fixed (byte* bytes = data, domains = of)
                {
                    return call(bytes, Size(data), domains, Size(of), Flag(isNumeric), text, size);
                }
            });
        }

        internal static byte[] Utf8(string text, string name)
        {
            if (text == null)
            {
                throw new ArgumentNullException(name);
            }
            return Encoding.UTF8.GetBytes(text);
        }

        /// <summary>A bool as C has it.</summary>
        internal static byte Flag(bool value)
        {
            return value ? (byte)1 : (byte)0;
        }

        internal static ulong Size(byte[] data)
        {
            return data == null ? 0 : (ulong)data.Length;
        }

        internal static byte[] Part(byte[] data, int offset, int size)
        {
            var part = new byte[size];
            Buffer.BlockCopy(data, offset, part, 0, size);
            return part;
        }

        /// <summary>The bytes at a place, or null if nothing is there.</summary>
        internal static byte[] Part(byte[] data, Native.Place place)
        {
            return place.size == 0 ? null : Part(data, (int)place.offset, (int)place.size);
        }

        private static int Written(Writing write, Given given, out byte[] written)
        {
            written = room ?? (room = new byte[FirstSize]);
            while (true)
            {
                Native.Outcome outcome;
                fixed (byte* output = written)
                {
                    outcome = write(output, (ulong)written.Length);
                }
                if (outcome.fault == Native.SDTOOL_OK)
                {
                    return (int)outcome.length;
                }
                if (outcome.fault != Native.SDTOOL_TOO_SMALL)
                {
                    throw given.Refused(outcome);
                }
                written = new byte[outcome.length];
            }
        }
    }
}
