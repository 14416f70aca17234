using System;
using System.Collections.Generic;
using System.Diagnostics;
using System.IO;
using System.Linq;
using System.Text;
using System.Threading;

namespace Sdtool
{
    /// <summary>
    /// Answers requests from standard input, one a line: words, of which bytes are in hex, and - is none. The first
    /// word of the command line says how many threads answer all of them, each by itself. 'time DESCRIPTOR SID'
    /// measures a check and an empty call. It is compiled with the sources of the assembly, to print faults by their
    /// numbers.
    /// </summary>
    internal static class Requests
    {
        private const int Calls = 1000;
        private const int Rounds = 1000; // of which some are not interrupted

        private static int Main(string[] words)
        {
            if (words[0] == "time")
            {
                Measure(new Words(words.Skip(1)));
                return 0;
            }
            var output = new StreamWriter(Console.OpenStandardOutput(), new UTF8Encoding(false), 1 << 16);
            var lines = new List<string>();
            for (string line = Console.ReadLine(); line != null; line = Console.ReadLine())
            {
                lines.Add(line);
            }
            string[][] all = FromThreads(lines, int.Parse(words[0]));
            Array.ForEach(all[0], output.WriteLine);
            output.Flush();
            return all.All(one => one.SequenceEqual(all[0])) ? 0 : 1;
        }

        private static string[][] FromThreads(List<string> lines, int count)
        {
            var all = new string[count][];
            Thread[] threads = Enumerable.Range(0, count).Select(number => new Thread(() =>
            {
                all[number] = lines.Select(Answer).ToArray();
            })).ToArray();
            Array.ForEach(threads, one => one.Start());
            Array.ForEach(threads, one => one.Join());
            return all;
        }

        private static void Measure(Words words)
        {
            SecurityDescriptor descriptor = words.Descriptor();
            var checker = new Checker(new Token(new[] { words.Sid() }), 0x120089);
            double check = Best(() =>
            {
                for (int at = 0; at < Calls; at++)
                {
                    if (!checker.Check(descriptor).IsGranted)
                    {
                        throw new InvalidOperationException();
                    }
                }
            });
            double empty = Best(() =>
            {
                for (int at = 0; at < Calls; at++)
                {
                    int _ = Library.VersionNumber;
                }
            });
            Console.WriteLine("{0:F1} {1:F1}", check, empty);
        }

        /// <summary>The nanoseconds of one of the calls.</summary>
        private static double Best(Action calls)
        {
            double best = double.MaxValue;
            for (int round = 0; round < Rounds; round++)
            {
                Stopwatch watch = Stopwatch.StartNew();
                calls();
                best = Math.Min(best, watch.Elapsed.TotalMilliseconds * 1e6 / Calls);
            }
            return best;
        }

        private static string Answer(string line)
        {
            var words = new Words(line.Split(new[] { ' ' }, StringSplitOptions.RemoveEmptyEntries));
            try
            {
                return Answered(words.Next(), words);
            }
            catch (FaultException fault)
            {
                return Told(fault);
            }
            catch (ArgumentFaultException fault)
            {
                Require(fault.Index == (int)fault.Outcome.entry, fault.Message);
                return Told(fault.Outcome, Given.Nothing);
            }
        }

        /// <summary>What a fault says of itself has to be what the library says.</summary>
        private static string Told(FaultException fault)
        {
            Native.Outcome told = fault.Outcome;
            Require(fault.Number == (int)told.fault && fault.Name == Library.FaultName(fault.Number), "Number, Name");
            Require((uint)fault.Part == told.part && (uint)fault.OtherPart == told.otherPart, "Part, OtherPart");
            Require(fault.Index == (told.argument == 0 ? (int?)null : (int)told.entry), "Index");
            Require(fault.Message == fault.Given.Describe(told), "Message");
            return Told(told, fault.Given);
        }

        private static void Require(bool isRight, string what)
        {
            if (!isRight)
            {
                throw new InvalidOperationException(what);
            }
        }

        private static string Told(Native.Outcome outcome, Given given)
        {
            Native.FaultPlace place = given.Find();
            string where = "-";
            if (place.fault == outcome.fault)
            {
                where = string.Join(",", place.part, NumberOf(place.ace == uint.MaxValue ? (int?)null : (int)place.ace),
                                    place.field, place.place.offset, place.place.size);
            }
            return string.Join(" ", "!", outcome.fault, Library.FaultName((int)outcome.fault), outcome.part,
                               outcome.otherPart, outcome.argument, outcome.entry, where, given.Describe(outcome));
        }

        private static string Answered(string job, Words w)
        {
            switch (job)
            {
                case "version":
                    return Library.Version + " " + Library.VersionNumber;
                case "guid":
                    return Sddl.FormatGuid(w.Guid().Value);
                case "guid-text":
                    return Hex(Sddl.ParseGuid(w.Text()).ToByteArray());
                case "rights":
                    return Sddl.ParseRights(w.Text()).ToString();
                case "rights-text":
                    return Hex(Sddl.FormatRights(w.Number(), w.Flag()));
                case "flags":
                    return ((int)Sddl.ParseFlags(w.Text())).ToString();
                case "flags-text":
                    return Hex(Sddl.FormatFlags((AceFlags)w.Number()));
                case "run":
                    return RunOf(w);
                case "place":
                    return PlaceOf(w.Chars(), w.SidOrNone());
                default:
                    return job.Contains("sid") || job.Contains("ace") ? OfParts(job, w) : OfDescriptors(job, w);
            }
        }

        private static string OfParts(string job, Words w)
        {
            switch (job)
            {
                case "sid":
                    Sid sid = w.Sid(), domain = w.SidOrNone();
                    return sid + " " + (sid.GetAlias(domain) ?? "-");
                case "sid-text":
                    return Hex(new Sid(w.Text(), w.SidOrNone()).GetBinaryForm());
                case "ace-text":
                    return AceOf(Ace.Parse(w.Text(), w.SidOrNone()));
                default:
                    Sid of = w.SidOrNone();
                    bool isNumeric = w.Flag();
                    return w.Ace().GetSddlForm(of, isNumeric);
            }
        }

        private static string OfDescriptors(string job, Words w)
        {
            switch (job)
            {
                case "bytes":
                    return Hex(w.Descriptor().GetBinaryForm());
                case "sddl":
                    return Hex(new SecurityDescriptor(w.Text(), w.SidOrNone()).GetBinaryForm());
                case "to-sddl":
                    return Printed(w, (descriptor, domain, isNumeric) => descriptor.GetSddlForm(domain, isNumeric));
                case "explain":
                    return Printed(w, (descriptor, domain, isNumeric) => Hex(descriptor.Explain(domain, isNumeric)));
                case "parts":
                    return PartsOf(w.Descriptor());
                case "order":
                    AclOrder order = w.Descriptor().Order;
                    return NumberOf(order.SystemAcl) + " " + NumberOf(order.DiscretionaryAcl);
                case "build":
                    return Hex(w.Parts().GetBinaryForm());
                case "edit":
                    return EditOf(w);
                case "convert-many":
                    return ConvertedOf(w);
                case "derive":
                    return w.Derivation((parent, owner, group, kind, creator, mapping) =>
                        Hex(parent.Derive(owner, group, kind, creator, mapping).GetBinaryForm()));
                case "derive-many":
                    return w.Creation((owner, group, kind, creator, mapping) =>
                        OfColumn(w.Column().Derive(owner, group, kind, creator, mapping)));
                case "origins":
                    return w.Derivation((parent, owner, group, kind, creator, mapping) =>
                    {
                        Origins origins = parent.GetOrigins(owner, group, kind, creator, mapping);
                        return OriginsOf(origins.SystemAcl, parent.SystemAcl, creator?.SystemAcl) + " " +
                               OriginsOf(origins.DiscretionaryAcl, parent.DiscretionaryAcl, creator?.DiscretionaryAcl);
                    });
                default:
                    return OfChecks(job, w);
            }
        }

        private static string ConvertedOf(Words w)
        {
            string job = w.Next();
            bool isNumeric = job == "to-sddl" && w.Flag();
            Conversion conversion = job == "to-sddl" ? Conversion.ToSddl
                                  : job == "from-sddl" ? Conversion.FromSddl : Conversion.Normalize;
            Sid domain = w.SidOrNone();
            return OfColumn(w.Column().Convert(conversion, domain, isNumeric));
        }

        private static string OfColumn(Column made)
        {
            return string.Join(" | ", Enumerable.Range(0, made.Count).Select(row =>
            {
                Exception fault;
                if (!made.Faults.TryGetValue(row, out fault))
                {
                    return Hex(made.GetRow(row));
                }
                Require(made.GetRow(row).Length == 0, "a row with a fault");
                var refused = fault as ArgumentFaultException;
                return refused == null ? Told((FaultException)fault) : Told(refused.Outcome, Given.Nothing);
            }));
        }

        private static string OfChecks(string job, Words w)
        {
            Checker checker = w.Checker();
            switch (job)
            {
                case "check":
                    return VerdictOf(checker.Check(w.Bytes()));
                case "check-many":
                    return string.Join(" | ", checker.CheckMany(w.Many(w.Bytes).ToArray()).Select(VerdictOf));
                case "check-column":
                    return string.Join(" | ", checker.CheckMany(w.Column()).Select(VerdictOf));
                default:
                    SecurityDescriptor descriptor = w.Descriptor();
                    return string.Join(" ", checker.GetReasons(descriptor).Select(one => ReasonOf(one, descriptor)));
            }
        }

        private static string ReasonOf(Reason reason, SecurityDescriptor descriptor)
        {
            Acl acl = reason.Kind == ReasonKind.Label ? descriptor.SystemAcl : descriptor.DiscretionaryAcl;
            Require(reason.Ace == (reason.Place.HasValue ? acl[reason.Place.Value] : null), "Ace");
            return (int)reason.Kind + "," + NumberOf(reason.Place) + "," + (reason.IsGranted ? 1 : 0);
        }

        private static string Printed(Words w, Func<SecurityDescriptor, Sid, bool, string> print)
        {
            Sid domain = w.SidOrNone();
            bool isNumeric = w.Flag();
            return print(w.Descriptor(), domain, isNumeric);
        }

        private static string VerdictOf(Verdict verdict)
        {
            return verdict.Fault == null ? (verdict.IsGranted ? 1 : 0) + " " + verdict.Mask
                                         : Told(verdict.Fault);
        }

        private static string PartsOf(SecurityDescriptor descriptor)
        {
            return string.Join(" ", SidOf(descriptor.Owner), SidOf(descriptor.Group), AclOf(descriptor.SystemAcl),
                               AclOf(descriptor.DiscretionaryAcl), (int)descriptor.ControlFlags,
                               descriptor.ResourceManagerControl);
        }

        private static string AclOf(Acl acl)
        {
            return acl.IsList ? "[" + string.Join(";", acl.Select(AceOf)) + "]" : acl.IsNull ? "null" : "absent";
        }

        private static string AceOf(Ace ace)
        {
            return string.Join(",", (int)ace.AceType, (int)ace.AceFlags, ace.AccessMask, SidOf(ace.SecurityIdentifier),
                               GuidOf(ace.ObjectAceType), GuidOf(ace.InheritedObjectAceType));
        }

        private static string SidOf(Sid sid)
        {
            return sid == null ? "-" : Hex(sid.GetBinaryForm());
        }

        private static string GuidOf(Guid? guid)
        {
            return guid.HasValue ? Hex(guid.Value.ToByteArray()) : "-";
        }

        private static string OriginsOf(IReadOnlyList<Origin> origins, Acl parents, Acl creators)
        {
            Require(origins.All(one => one.Ace == (one.IsFromCreator ? creators : parents)[one.Place]), "Ace");
            return "[" + string.Join(";", origins.Select(one => one.Place + "," + (one.IsFromCreator ? 1 : 0) + "," +
                                                                (one.IsInheritOnly ? 1 : 0))) + "]";
        }

        private static string EditOf(Words w)
        {
            Change[] changes = w.Many(w.Change).ToArray();
            Edited edited = w.Descriptor().Edit(changes);
            return Hex(edited.Descriptor.GetBinaryForm()) + " " + string.Join(",", edited.Touched);
        }

        private static string RunOf(Words w)
        {
            string[] words = w.Many(w.Text).ToArray();
            Ending ended = Library.Run(words, w.Bytes());
            return (int)ended.Status + " " + Hex(ended.Output) + " " + Hex(ended.Message);
        }

        /// <summary>The place of the fault of a text, in chars.</summary>
        private static string PlaceOf(string text, Sid domain)
        {
            try
            {
                return Hex(new SecurityDescriptor(text, domain).GetBinaryForm());
            }
            catch (FaultException fault)
            {
                Place place = fault.Place;
                return place == null ? "-" : string.Join(",", (int)place.Part, NumberOf(place.Ace), (int)place.Field,
                                                         place.Offset, place.Size);
            }
        }

        private static string NumberOf(int? number)
        {
            return number.HasValue ? number.Value.ToString() : "-";
        }

        private static string Hex(string text)
        {
            return Hex(Encoding.UTF8.GetBytes(text));
        }

        private static string Hex(byte[] data)
        {
            return data.Length == 0 ? "-" : BitConverter.ToString(data).Replace("-", "").ToLowerInvariant();
        }

        private delegate string Creating(Sid owner, Sid group, ObjectKind kind, SecurityDescriptor creator,
                                         Mapping mapping);

        private delegate string Deriving(SecurityDescriptor parent, Sid owner, Sid group, ObjectKind kind,
                                         SecurityDescriptor creator, Mapping mapping);

        /// <summary>The words of a request, which are taken from the left.</summary>
        private sealed class Words
        {
            private readonly Queue<string> words;

            internal Words(IEnumerable<string> words)
            {
                this.words = new Queue<string>(words);
            }

            internal string Next()
            {
                return words.Dequeue();
            }

            internal uint Number()
            {
                return uint.Parse(Next());
            }

            internal bool Flag()
            {
                return Number() == 1;
            }

            internal byte[] Bytes()
            {
                string word = Next();
                var data = new byte[word == "-" ? 0 : word.Length / 2];
                for (int at = 0; at < data.Length; at++)
                {
                    data[at] = Convert.ToByte(word.Substring(2 * at, 2), 16);
                }
                return data;
            }

            internal string Text()
            {
                return Encoding.UTF8.GetString(Bytes());
            }

            /// <summary>A text of any chars, also of those that are no characters.</summary>
            internal string Chars()
            {
                byte[] data = Bytes();
                var chars = new char[data.Length / 2];
                Buffer.BlockCopy(data, 0, chars, 0, data.Length);
                return new string(chars);
            }

            internal Sid Sid()
            {
                return new Sid(Bytes());
            }

            internal Sid SidOrNone()
            {
                byte[] data = Bytes();
                return data.Length == 0 ? null : new Sid(data);
            }

            internal Guid? Guid()
            {
                byte[] data = Bytes();
                return data.Length == 0 ? (Guid?)null : new Guid(data);
            }

            internal SecurityDescriptor Descriptor()
            {
                return new SecurityDescriptor(Bytes());
            }

            /// <summary>As many items as the next word says.</summary>
            internal IEnumerable<T> Many<T>(Func<T> one)
            {
                for (uint left = Number(); left > 0; left--)
                {
                    yield return one();
                }
            }

            internal Ace Ace()
            {
                var type = (AceType)Number();
                var flags = (AceFlags)Number();
                uint mask = Number();
                Sid sid = Sid();
                Guid? objectType = Guid();
                return new Ace(type, flags, mask, sid, objectType, Guid());
            }

            internal Acl Acl()
            {
                switch (words.Peek())
                {
                    case "absent":
                        Next();
                        return Sdtool.Acl.Absent;
                    case "null":
                        Next();
                        return Sdtool.Acl.Null;
                    default:
                        return new Acl(Many(Ace));
                }
            }

            internal SecurityDescriptor Parts()
            {
                var control = (ControlFlags)Number();
                var manager = (byte)Number();
                Sid owner = SidOrNone(), group = SidOrNone();
                Acl sacl = Acl(), dacl = Acl();
                return new SecurityDescriptor(control, owner, group, sacl, dacl, manager);
            }

            internal Checker Checker()
            {
                Sid[] sids = Many(Sid).ToArray(), denyOnly = Many(Sid).ToArray();
                uint options = Number();
                uint? level = (options & Native.SDTOOL_HAS_LEVEL) != 0 ? Number() : (uint?)null;
                var token = new Token(sids, denyOnly, level, (Privileges)(options & ~Native.SDTOOL_HAS_LEVEL));
                var mapping = (Mapping)Number();
                bool isMaximum = Flag();
                Guid? objectType = Guid();
                Sid principal = SidOrNone();
                return new Checker(token, Number(), isMaximum, mapping, objectType, principal);
            }

            internal string Creation(Creating call)
            {
                var kind = (ObjectKind)Number();
                var mapping = (Mapping)Number();
                Sid owner = Sid(), group = Sid();
                byte[] data = Bytes();
                SecurityDescriptor creator = data.Length == 0 ? null : new SecurityDescriptor(data);
                return call(owner, group, kind, creator, mapping);
            }

            internal string Derivation(Deriving call)
            {
                return Creation((owner, group, kind, creator, mapping) =>
                    call(Descriptor(), owner, group, kind, creator, mapping));
            }

            internal Column Column()
            {
                byte[] data = Bytes(), ends = Bytes();
                return new Column(data, Enumerable.Range(0, ends.Length / 8)
                                                  .Select(at => BitConverter.ToInt32(ends, 8 * at)).ToArray());
            }

            internal Change Change()
            {
                string kind = Next();
                Part acl = Next() == "S" ? Part.SystemAcl : Part.DiscretionaryAcl;
                switch (kind)
                {
                    case "put":
                        return Put(acl, Number());
                    case "take":
                        return Sdtool.Change.Take(acl, PlaceOf(Number()));
                    case "replace":
                        return Sdtool.Change.Replace(acl, PlaceOf(Number()), Ace());
                    case "take-each":
                        return Sdtool.Change.TakeEach(acl, Match());
                    case "set-each":
                        return Sdtool.Change.SetEach(acl, Match(), Setting());
                    case "order":
                        return Sdtool.Change.Order(acl);
                    case "state":
                        return Sdtool.Change.State(acl, (AclState)Number());
                    case "owner":
                        return Sdtool.Change.Owner(SidOrNone());
                    case "group":
                        return Sdtool.Change.Group(SidOrNone());
                    default:
                        return Sdtool.Change.Control((ControlFlags)Number(), (ControlFlags)Number());
                }
            }

            private Change Put(Part acl, uint place)
            {
                switch (place)
                {
                    case Native.SDTOOL_AT_END:
                        return Sdtool.Change.PutAtEnd(acl, Ace());
                    case Native.SDTOOL_BY_ORDER:
                        return Sdtool.Change.PutByOrder(acl, Ace());
                    default:
                        return Sdtool.Change.Put(acl, PlaceOf(place), Ace());
                }
            }

            /// <summary>No ACL has more ACEs than an int counts.</summary>
            private static int PlaceOf(uint place)
            {
                return (int)Math.Min(place, int.MaxValue);
            }

            private Match Match()
            {
                var flags = (AceFlags)Number();
                var flagsMask = (AceFlags)Number();
                Sid sid = SidOrNone();
                AceType? type = Flag() ? (AceType)Number() : (AceType?)null;
                uint? mask = Flag() ? Number() : (uint?)null;
                TypeMatch objectType = TypeMatch();
                return new Match(sid, type, mask, flags, flagsMask, objectType, TypeMatch());
            }

            private TypeMatch TypeMatch()
            {
                switch (Next())
                {
                    case "any":
                        return default(TypeMatch);
                    case "none":
                        return Sdtool.TypeMatch.None;
                    default:
                        return new TypeMatch(Guid().Value);
                }
            }

            private Setting Setting()
            {
                return new Setting(SidOrNone(), Number(), Number(), (AceFlags)Number(), (AceFlags)Number());
            }
        }
    }
}
