using System;
using System.Collections.Generic;

namespace Sdtool
{
    /// <summary>Who asks: the user's SID, those of all groups, and of groups such as Everyone (WD).</summary>
    public sealed class Token
    {
        /// <summary>A token, which is read once for all checks.</summary>
        /// <param name="sids">The SIDs.</param>
        /// <param name="denyOnly">SIDs that count only for ACEs that deny.</param>
        /// <param name="level">The integrity level, such as 8192 for medium; without it no label is looked at.</param>
        /// <param name="privileges">The privileges that it has.</param>
        /// <exception cref="ArgumentFaultException">There are more than 1,024 SIDs.</exception>
        public Token(IEnumerable<Sid> sids, IEnumerable<Sid> denyOnly = null, uint? level = null,
                     Privileges privileges = Privileges.None)
        {
            Sid[] enabled = Held(sids, nameof(sids)), denying = Held(denyOnly ?? new Sid[0], nameof(denyOnly));
            Sids = Array.AsReadOnly(enabled);
            DenyOnly = Array.AsReadOnly(denying);
            Level = level;
            Privileges = privileges;
            Asker = AskerOf(level, privileges);
            Entries = EntriesOf(enabled.Length, denying.Length);
            Data = DataOf(enabled, denying);
            Words = Read(Data, Entries);
        }

        public IReadOnlyList<Sid> Sids { get; }

        public IReadOnlyList<Sid> DenyOnly { get; }

        public uint? Level { get; }

        public Privileges Privileges { get; }

        /// <summary>Who asks, beside the SIDs, and without a mapping.</summary>
        internal Native.Asker Asker { get; }

        /// <summary>The SIDs in binary, one after the other.</summary>
        internal byte[] Data { get; }

        /// <summary>Whether each SID counts only for ACEs that deny.</summary>
        internal byte[] Entries { get; }

        /// <summary>The same as the library has read them.</summary>
        internal uint[] Words { get; }

        /// <summary>A token of the SIDs of these texts alone, such as BU.</summary>
        /// <exception cref="FaultException">A text is no SID.</exception>
        public static Token Of(params string[] sids)
        {
            return new Token(Array.ConvertAll(sids, one => new Sid(one)));
        }

        private static Native.Asker AskerOf(uint? level, Privileges privileges)
        {
            if (((uint)privileges & Native.SDTOOL_HAS_LEVEL) != 0)
            {
                throw new ArgumentOutOfRangeException(nameof(privileges)); // The bit says that there is a level.
            }
            uint options = (uint)privileges | (level.HasValue ? Native.SDTOOL_HAS_LEVEL : 0);
            return new Native.Asker { level = level ?? 0, options = options };
        }

        private static Sid[] Held(IEnumerable<Sid> sids, string name)
        {
            if (sids == null)
            {
                throw new ArgumentNullException(name);
            }
            Sid[] held = new List<Sid>(sids).ToArray();
            if (Array.Exists(held, one => one == null))
            {
                throw new ArgumentNullException(name);
            }
            return held;
        }

        private static byte[] EntriesOf(int enabled, int denying)
        {
            var entries = new byte[enabled + denying];
            for (int at = enabled; at < entries.Length; at++)
            {
                entries[at] = (byte)Native.SDTOOL_DENY_ONLY;
            }
            return entries;
        }

        private static byte[] DataOf(Sid[] enabled, Sid[] denying)
        {
            var data = new List<byte>();
            foreach (Sid sid in enabled)
            {
                data.AddRange(sid.Data);
            }
            foreach (Sid sid in denying)
            {
                data.AddRange(sid.Data);
            }
            return data.ToArray();
        }

        private static unsafe uint[] Read(byte[] data, byte[] entries)
        {
            var words = new uint[Native.SDTOOL_TOKEN_WORDS_FIRST + Native.SDTOOL_TOKEN_WORDS_EACH *
                                 Math.Min(entries.Length, Native.SDTOOL_MOST_SIDS)];
            fixed (byte* bytes = data, kinds = entries)
            fixed (uint* token = words)
            {
                Native.Outcome outcome = Loader.Calls.TokenRead(bytes, Answer.Size(data), kinds, Answer.Size(entries),
                                                                token, (ulong)words.Length);
                if (outcome.fault != Native.SDTOOL_OK)
                {
                    throw Given.Nothing.Refused(outcome);
                }
            }
            return words;
        }
    }

    /// <summary>The answer of an access check. One that was not made grants nothing.</summary>
    public struct Verdict : IEquatable<Verdict>
    {
        internal Verdict(bool isGranted, uint mask, FaultException fault) : this()
        {
            IsGranted = isGranted;
            Mask = mask;
            Fault = fault;
        }

        /// <summary>Whether each wanted right is granted.</summary>
        public bool IsGranted { get; }

        /// <summary>
        /// The rights that are granted: those that were wanted, and with maximum all others. Without IsGranted the
        /// wanted rights that are missing.
        /// </summary>
        public uint Mask { get; }

        /// <summary>Why it is unknown whether that is granted; null unless many descriptors were checked.</summary>
        public FaultException Fault { get; }

        public static bool operator ==(Verdict left, Verdict right)
        {
            return left.Equals(right);
        }

        public static bool operator !=(Verdict left, Verdict right)
        {
            return !left.Equals(right);
        }

        public bool Equals(Verdict other)
        {
            return IsGranted == other.IsGranted && Mask == other.Mask && ReferenceEquals(Fault, other.Fault);
        }

        public override bool Equals(object obj)
        {
            return obj is Verdict && Equals((Verdict)obj);
        }

        public override int GetHashCode()
        {
            return unchecked((int)Mask) ^ (IsGranted ? 1 : 0);
        }

        public override string ToString()
        {
            return Fault != null ? Fault.Message : (IsGranted ? "granted 0x" : "denied 0x") + Mask.ToString("x8");
        }
    }

    /// <summary>Why a right is granted or denied.</summary>
    public sealed class Reason
    {
        internal Reason(Native.Reason told, SecurityDescriptor descriptor)
        {
            Kind = (ReasonKind)told.kind;
            if (told.place != Native.SDTOOL_NO_PLACE)
            {
                Place = told.place;
                Ace = (Kind == ReasonKind.Label ? descriptor.SystemAcl : descriptor.DiscretionaryAcl)[told.place];
            }
        }

        public ReasonKind Kind { get; }

        /// <summary>The index of the ACE in the DACL, or with a label in the SACL, if there is one.</summary>
        public int? Place { get; }

        /// <summary>The ACE, or null.</summary>
        public Ace Ace { get; }

        public bool IsGranted
        {
            get { return Kind >= ReasonKind.NoDiscretionaryAcl && Kind <= ReasonKind.Granted; }
        }
    }

    /// <summary>Checks of one token and one request, which are read once.</summary>
    public sealed unsafe class Checker
    {
        private const int MostAtOnce = 1024;
        private readonly Native.CheckWithCall check = Loader.Calls.CheckWith;
        private readonly Token token;
        private readonly byte[] objectType;
        private readonly byte[] principalSelf;
        private Native.Request request; // which nothing changes; a call takes its address

        /// <summary>The arguments are those of <see cref="SecurityDescriptor.Check"/>.</summary>
        public Checker(Token token, uint wanted, bool maximum = false, Mapping mapping = Mapping.File,
                       Guid? objectType = null, Sid principalSelf = null)
        {
            this.token = token ?? throw new ArgumentNullException(nameof(token));
            this.objectType = Ace.DataOf(objectType);
            this.principalSelf = Sid.DataOf(principalSelf);
            request.asker = token.Asker;
            request.asker.mapping = (uint)mapping;
            request.wanted = wanted;
            request.options = maximum ? Native.SDTOOL_MAXIMUM : 0;
        }

        /// <exception cref="FaultException">No right is asked for, or a reserved one.</exception>
        public Verdict Check(SecurityDescriptor descriptor)
        {
            if (ReferenceEquals(descriptor, null))
            {
                throw new ArgumentNullException(nameof(descriptor));
            }
            return Ask(descriptor.Data);
        }

        /// <exception cref="FaultException">The bytes are no descriptor, or as for a descriptor.</exception>
        public Verdict Check(byte[] descriptor)
        {
            if (descriptor == null)
            {
                throw new ArgumentNullException(nameof(descriptor));
            }
            return Ask(descriptor);
        }

        /// <summary>
        /// The verdicts on many descriptors in binary, in order. A verdict on bytes that are no descriptor has a fault,
        /// and grants nothing. At most 1,024 are taken before their verdicts come.
        /// </summary>
        public IEnumerable<Verdict> CheckMany(IEnumerable<byte[]> descriptors)
        {
            if (descriptors == null)
            {
                throw new ArgumentNullException(nameof(descriptors));
            }
            return InPieces(descriptors);
        }

        /// <summary>The verdicts on many descriptors, in order.</summary>
        public IEnumerable<Verdict> CheckMany(IEnumerable<SecurityDescriptor> descriptors)
        {
            if (descriptors == null)
            {
                throw new ArgumentNullException(nameof(descriptors));
            }
            return InPieces(DataOf(descriptors));
        }

        /// <summary>
        /// The verdicts on the rows of a column, in order. A verdict on a row that is no descriptor has a fault, and
        /// grants nothing; its number is 70 if the offsets of the row decrease or pass the end of the bytes.
        /// </summary>
        public IReadOnlyList<Verdict> CheckMany(Column column)
        {
            if (column == null)
            {
                throw new ArgumentNullException(nameof(column));
            }
            Native.Verdict[] told = column.Asked(AskRows);
            var verdicts = new Verdict[told.Length];
            for (int row = 0; row < told.Length; row++)
            {
                bool isRow = told[row].outcome.fault != Native.SDTOOL_ARGUMENT;
                verdicts[row] = VerdictOf(told[row], isRow ? Given.Descriptor(column.GetRow(row)) : Given.Nothing);
            }
            return Array.AsReadOnly(verdicts);
        }

        /// <summary>Why the token has each of the rights 0 to 24 or not, by its place in a mask.</summary>
        public IReadOnlyList<Reason> GetReasons(SecurityDescriptor descriptor)
        {
            if (ReferenceEquals(descriptor, null))
            {
                throw new ArgumentNullException(nameof(descriptor));
            }
            return Array.AsReadOnly(Array.ConvertAll(Told(descriptor.Data), one => new Reason(one, descriptor)));
        }

        private Verdict Ask(byte[] data)
        {
            Native.Verdict told;
            fixed (byte* bytes = data, type = objectType, self = principalSelf)
            fixed (uint* words = token.Words)
            fixed (Native.Request* asked = &request)
            {
                told = check(bytes, (ulong)data.Length, words, (ulong)token.Words.Length, type, Answer.Size(objectType),
                             self, Answer.Size(principalSelf), asked);
            }
            if (told.outcome.fault != Native.SDTOOL_OK)
            {
                throw Given.Descriptor(data).Refused(told.outcome);
            }
            return new Verdict(told.granted == 1, told.mask, null);
        }

        private Native.Reason[] Told(byte[] data)
        {
            Native.Asker asked = request.asker;
            var told = new Native.Reason[Native.SDTOOL_RIGHTS];
            Native.Outcome outcome;
            fixed (byte* bytes = data, type = objectType, self = principalSelf)
            fixed (uint* words = token.Words)
            fixed (Native.Reason* reasons = told)
            {
                outcome = Loader.Calls.ReasonsWith(bytes, (ulong)data.Length, words, (ulong)token.Words.Length, type,
                                                   Answer.Size(objectType), self, Answer.Size(principalSelf), &asked,
                                                   reasons);
            }
            if (outcome.fault != Native.SDTOOL_OK)
            {
                throw Given.Descriptor(data).Refused(outcome);
            }
            return told;
        }

        private static IEnumerable<byte[]> DataOf(IEnumerable<SecurityDescriptor> descriptors)
        {
            foreach (SecurityDescriptor one in descriptors)
            {
                yield return one == null ? null : one.Data;
            }
        }

        private IEnumerable<Verdict> InPieces(IEnumerable<byte[]> descriptors)
        {
            var taken = new List<byte[]>();
            foreach (byte[] one in descriptors)
            {
                taken.Add(one ?? throw new ArgumentNullException(nameof(descriptors)));
                if (taken.Count == MostAtOnce)
                {
                    foreach (Verdict verdict in AskMany(taken))
                    {
                        yield return verdict;
                    }
                    taken.Clear();
                }
            }
            foreach (Verdict verdict in AskMany(taken))
            {
                yield return verdict;
            }
        }

        private Verdict[] AskMany(List<byte[]> descriptors)
        {
            long size = 0;
            descriptors.ForEach(one => size += one.Length);
            using (var block = new Block(size))
            {
                Native.Bytes[] given = descriptors.ConvertAll(block.Copy).ToArray();
                Native.Verdict[] told = AskMany(given);
                var verdicts = new Verdict[told.Length];
                for (int at = 0; at < told.Length; at++)
                {
                    verdicts[at] = VerdictOf(told[at], Given.Descriptor(descriptors[at]));
                }
                return verdicts;
            }
        }

        private Native.Verdict[] AskMany(Native.Bytes[] descriptors)
        {
            var told = new Native.Verdict[descriptors.Length];
            Native.Request asked = request;
            Native.Outcome outcome;
            fixed (Native.Bytes* given = descriptors)
            fixed (Native.Verdict* verdicts = told)
            fixed (byte* sids = token.Data, entries = token.Entries, type = objectType, self = principalSelf)
            {
                outcome = Loader.Calls.CheckMany(given, (ulong)descriptors.Length, sids, Answer.Size(token.Data),
                                                 entries, Answer.Size(token.Entries), type, Answer.Size(objectType),
                                                 self, Answer.Size(principalSelf), &asked, verdicts,
                                                 (ulong)told.Length);
            }
            if (outcome.fault != Native.SDTOOL_OK)
            {
                throw Given.Nothing.Refused(outcome);
            }
            return told;
        }

        private Native.Outcome AskRows(Native.Column rows, Native.Verdict* verdicts, ulong count)
        {
            fixed (byte* sids = token.Data, entries = token.Entries, type = objectType, self = principalSelf)
            {
                var asked = new Native.ColumnCheck
                {
                    descriptors = rows,
                    sids = new Native.Bytes { bytes = sids, size = Answer.Size(token.Data) },
                    entries = new Native.Bytes { bytes = entries, size = Answer.Size(token.Entries) },
                    @object = new Native.Bytes { bytes = type, size = Answer.Size(objectType) },
                    principalSelf = new Native.Bytes { bytes = self, size = Answer.Size(principalSelf) },
                    request = request
                };
                return Loader.Calls.CheckColumn(&asked, verdicts, count);
            }
        }

        private static Verdict VerdictOf(Native.Verdict told, Given given)
        {
            bool isKnown = told.outcome.fault == Native.SDTOOL_OK;
            return new Verdict(isKnown && told.granted == 1, told.mask, isKnown ? null : given.Fault(told.outcome));
        }
    }
}
