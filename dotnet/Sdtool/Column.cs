using System;
using System.Collections.Generic;

namespace Sdtool
{
    /// <summary>What the rows of a column are converted to.</summary>
    public enum Conversion
    {
        /// <summary>Descriptors to SDDL, in UTF-8.</summary>
        ToSddl = (int)Native.SDTOOL_CONVERT_TO_SDDL,
        /// <summary>SDDL to descriptors in their canonical layout.</summary>
        FromSddl = (int)Native.SDTOOL_CONVERT_FROM_SDDL,
        /// <summary>Descriptors to their canonical layout.</summary>
        Normalize = (int)Native.SDTOOL_CONVERT_NORMALIZE
    }

    /// <summary>
    /// Rows of bytes or of texts in UTF-8, with offsets of 32 bits as Arrow has it. A null is a row like others, so
    /// keep it beside the column: from SDDL an empty row gives a descriptor that grants everything.
    /// </summary>
    public sealed unsafe class Column
    {
        private const int MostBytes = 0x7fffffc7; // of an array
        private readonly byte[] data;
        private readonly int[] offsets;

        /// <param name="data">The bytes of all rows.</param>
        /// <param name="offsets">One more than there are rows: where each begins, and the end.</param>
        public Column(byte[] data, int[] offsets)
            : this((byte[])data?.Clone(), (int[])offsets?.Clone(), new Dictionary<int, Exception>())
        {
        }

        private Column(byte[] data, int[] offsets, IReadOnlyDictionary<int, Exception> faults)
        {
            this.data = data ?? throw new ArgumentNullException(nameof(data));
            this.offsets = offsets ?? throw new ArgumentNullException(nameof(offsets));
            Faults = faults;
        }

        public int Count
        {
            get { return Math.Max(offsets.Length - 1, 0); }
        }

        /// <summary>The rows that a conversion had no answer for, which are empty, and why.</summary>
        public IReadOnlyDictionary<int, Exception> Faults { get; }

        /// <summary>The bytes of a row.</summary>
        public byte[] GetRow(int row)
        {
            return Answer.Part(data, offsets[row], checked(offsets[row + 1] - offsets[row]));
        }

        /// <summary>Each row by itself, under a domain or without aliases.</summary>
        public Column Convert(Conversion conversion, Sid domain = null, bool isNumeric = false)
        {
            byte[] of = Sid.DataOf(domain);
            return Answered((row, made, ends, outcomes) =>
            {
                fixed (byte* bytes = data, domains = of, room = made)
                fixed (int* starts = offsets, told = ends)
                fixed (Native.Outcome* all = outcomes)
                {
                    Native.Column rows = Rows(bytes, starts, row);
                    var asked = new Native.Conversion
                    {
                        data = rows.data,
                        offsets = rows.offsets,
                        offsetCount = rows.offsetCount,
                        domain = new Native.Bytes { bytes = domains, size = Answer.Size(of) },
                        begin = (ulong)ends[row],
                        kind = (uint)conversion,
                        options = isNumeric ? Native.SDTOOL_NUMERIC : 0
                    };
                    return Loader.Calls.ConvertMany(&asked, room, Answer.Size(made), (uint*)told + row,
                                                    asked.offsetCount, all + row, asked.offsetCount);
                }
            }, bytes => conversion == Conversion.FromSddl ? Given.Sddl(bytes, of) : Given.Descriptor(bytes));
        }

        /// <summary>
        /// The descriptor of a new object for each row, which is the descriptor of a folder. The arguments are those of
        /// <see cref="SecurityDescriptor.Derive"/>.
        /// </summary>
        public Column Derive(Sid owner, Sid group, ObjectKind kind = ObjectKind.File, SecurityDescriptor creator = null,
                             Mapping mapping = Mapping.File)
        {
            byte[] brought = creator?.Data;
            byte[] newOwner = Sid.DataOf(owner) ?? throw new ArgumentNullException(nameof(owner));
            byte[] newGroup = Sid.DataOf(group) ?? throw new ArgumentNullException(nameof(group));
            return Answered((row, made, ends, outcomes) =>
            {
                fixed (byte* bytes = data, creators = brought, owners = newOwner, groups = newGroup, room = made)
                fixed (int* starts = offsets, told = ends)
                fixed (Native.Outcome* all = outcomes)
                {
                    var asked = new Native.Derivation
                    {
                        parents = Rows(bytes, starts, row),
                        creation = new Native.Creation
                        {
                            creator = new Native.Bytes { bytes = creators, size = Answer.Size(brought) },
                            owner = new Native.Bytes { bytes = owners, size = Answer.Size(newOwner) },
                            group = new Native.Bytes { bytes = groups, size = Answer.Size(newGroup) },
                            kind = (uint)kind,
                            mapping = (uint)mapping
                        },
                        begin = (ulong)ends[row]
                    };
                    return Loader.Calls.DeriveMany(&asked, room, Answer.Size(made), (uint*)told + row,
                                                   asked.parents.offsetCount, all + row, asked.parents.offsetCount);
                }
            }, Given.Descriptor);
        }

        /// <summary>What a call that gets the rows says of each.</summary>
        internal Native.Verdict[] Asked(CheckRows check)
        {
            var told = new Native.Verdict[Count];
            Native.Outcome outcome;
            fixed (byte* bytes = data)
            fixed (int* starts = offsets)
            fixed (Native.Verdict* verdicts = told)
            {
                outcome = check(Rows(bytes, starts, 0), verdicts, (ulong)told.Length);
            }
            if (outcome.fault != Native.SDTOOL_OK)
            {
                throw Given.Nothing.Refused(outcome);
            }
            return told;
        }

        internal delegate Native.Outcome CheckRows(Native.Column rows, Native.Verdict* verdicts, ulong count);

        // A call about the rows from one on. Their answers begin where those before it end.
        private delegate Native.Outcome AskRows(int row, byte[] made, int[] ends, Native.Outcome[] outcomes);

        private Column Answered(AskRows ask, Func<byte[], Given> given)
        {
            var made = new byte[Math.Min(data.Length + 1024L, MostBytes)];
            // One more of each, since there may be no offset.
            var ends = new int[offsets.Length + 1];
            var outcomes = new Native.Outcome[offsets.Length + 1];
            for (int row = 0; ; )
            {
                Native.Outcome told = ask(row, made, ends, outcomes);
                if (told.fault == Native.SDTOOL_OK)
                {
                    Array.Resize(ref ends, offsets.Length);
                    return new Column(made, ends, FaultsOf(outcomes, given));
                }
                if (told.fault != Native.SDTOOL_TOO_SMALL)
                {
                    throw Given.Nothing.Refused(told);
                }
                row += (int)told.entry;
                long needed = ends[row] + (long)told.length;
                Array.Resize(ref made, checked((int)Math.Max(needed, Math.Min(2L * made.Length, MostBytes))));
            }
        }

        private Native.Column Rows(byte* bytes, int* starts, int row)
        {
            return new Native.Column
            {
                data = new Native.Bytes { bytes = bytes, size = Answer.Size(data) },
                offsets = (uint*)starts + row,
                offsetCount = (ulong)(offsets.Length - row)
            };
        }

        private Dictionary<int, Exception> FaultsOf(Native.Outcome[] outcomes, Func<byte[], Given> given)
        {
            var found = new Dictionary<int, Exception>();
            for (int row = 0; row < Count; row++)
            {
                Native.Outcome told = outcomes[row];
                if (told.fault != Native.SDTOOL_OK)
                {
                    bool isArgument = told.fault == Native.SDTOOL_ARGUMENT;
                    found[row] = (isArgument ? Given.Nothing : given(GetRow(row))).Refused(told);
                }
            }
            return found;
        }
    }
}
