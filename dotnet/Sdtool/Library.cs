using System;
using System.Collections.Generic;
using System.Text;

namespace Sdtool
{
    /// <summary>What a run of the program prints.</summary>
    public sealed class Ending
    {
        internal Ending(Status status, byte[] output, string message)
        {
            Status = status;
            Output = output;
            Message = message;
        }

        public Status Status { get; }

        /// <summary>What it prints to standard output.</summary>
        public byte[] Output { get; }

        /// <summary>What it prints to standard error.</summary>
        public string Message { get; }
    }

    /// <summary>The native library.</summary>
    public static unsafe class Library
    {
        /// <summary>Its version, such as 0.1.0.</summary>
        /// <exception cref="LibraryException">The library can't be used.</exception>
        public static string Version
        {
            get { return Answer.Text((text, size) => Loader.Calls.Version(text, size)); }
        }

        /// <summary>The same as a number: 10000 times the first number, 100 times the second, and the third.</summary>
        public static int VersionNumber
        {
            get { return (int)Loader.Calls.VersionNumber(); }
        }

        /// <summary>The name of a fault, such as sid-form for 25.</summary>
        /// <exception cref="ArgumentFaultException">No fault has the number.</exception>
        public static string FaultName(int number)
        {
            return Answer.Text((text, size) => Loader.Calls.FaultText(unchecked((uint)number), text, size));
        }

        /// <summary>Runs the program on an input of one descriptor a line.</summary>
        /// <param name="words">Those of the command line, such as convert, --to, sddl.</param>
        /// <param name="input">The input.</param>
        public static Ending Run(IEnumerable<string> words, byte[] input)
        {
            if (input == null)
            {
                throw new ArgumentNullException(nameof(input));
            }
            byte[] line = Line(words), message = new byte[Native.SDTOOL_MOST_MESSAGE];
            for (int size = 4096 + 4 * input.Length; ; size = checked(4 * size))
            {
                var output = new byte[size];
                Native.Ending told = Run(line, input, output, message);
                if (told.status == Native.SDTOOL_STATUS_NO_MEMORY)
                {
                    throw new InsufficientMemoryException();
                }
                // Help that was cut ends with 0.
                if (told.status != Native.SDTOOL_STATUS_STOPPED && told.length < (ulong)size)
                {
                    return new Ending((Status)told.status, Answer.Part(output, 0, (int)told.length),
                                      Encoding.UTF8.GetString(message, 0, (int)told.messageLength));
                }
            }
        }

        private static Native.Ending Run(byte[] words, byte[] input, byte[] output, byte[] message)
        {
            fixed (byte* line = words, given = input, printed = output, said = message)
            {
                return Loader.Calls.Run(line, Answer.Size(words), given, Answer.Size(input), printed,
                                        Answer.Size(output), said, Answer.Size(message));
            }
        }

        /// <summary>Each word with a NUL behind it. One with a NUL inside is none, and so becomes no UTF-8.</summary>
        private static byte[] Line(IEnumerable<string> words)
        {
            if (words == null)
            {
                throw new ArgumentNullException(nameof(words));
            }
            var line = new List<byte>();
            foreach (string word in words)
            {
                byte[] spelled = Answer.Utf8(word, nameof(words));
                line.AddRange(Array.IndexOf(spelled, (byte)0) < 0 ? spelled : new byte[] { 0xff });
                line.Add(0);
            }
            return line.ToArray();
        }
    }
}
