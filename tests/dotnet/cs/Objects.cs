using System;
using System.Collections.Generic;
using System.Linq;
using System.Reflection;
using Sdtool;

/// <summary>Tries the assembly's objects as values, and prints what isn't so.</summary>
internal static class Objects
{
    private const BindingFlags Own = BindingFlags.DeclaredOnly | BindingFlags.Public | BindingFlags.Instance;
    private static int passed;
    private static int failed;

    private static void Main()
    {
        AreValues();
        AreFixed();
        TryAcls();
        TryVerdicts();
        TryColumns();
        TryArguments();
        TryTexts();
        Console.WriteLine(passed + " passed, " + failed + " failed");
    }

    private static void Add(bool isRight, string what)
    {
        passed += isRight ? 1 : 0;
        failed += isRight ? 0 : 1;
        if (!isRight)
        {
            Console.WriteLine("FAIL " + what);
        }
    }

    private static void Refuses<T>(string what, Action action) where T : Exception
    {
        try
        {
            action();
            Add(false, what + " is taken");
        }
        catch (Exception problem)
        {
            Add(problem.GetType() == typeof(T), what + " is refused with " + problem);
        }
    }

    private static void AreEqual<T>(T one, T same, T other) where T : class
    {
        string name = typeof(T).Name;
        Add(one.Equals(same) && one.GetHashCode() == same.GetHashCode(), name + " has no equal");
        Add(!one.Equals(other) && !one.Equals(null) && !one.Equals(new object()), name + ": not equal");
    }

    private static void AreValues()
    {
        AreEqual(new Sid("BA"), new Sid("S-1-5-32-544"), new Sid("BU"));
        AreEqual(Ace.Parse("(A;;FR;;;BU)"), new Ace(AceType.AccessAllowed, AceFlags.None, 0x120089, new Sid("BU")),
                 Ace.Parse("(D;;FR;;;BU)"));
        AreEqual(new Acl(Ace.Parse("(A;;FR;;;BU)")), new SecurityDescriptor("D:(A;;FR;;;BU)").DiscretionaryAcl,
                 new Acl());
        AreEqual(new SecurityDescriptor("O:BAD:"), new SecurityDescriptor(ControlFlags.None, new Sid("BA"), null,
                                                                        Acl.Absent, new Acl()),
                 new SecurityDescriptor("O:BA"));
        AreEqual(Change.Take(Part.SystemAcl, 1), Change.Take(Part.SystemAcl, 1), Change.Take(Part.SystemAcl, 2));
        Add(new Sid("BA") == new Sid("BA") && new Sid("BA") != new Sid("BU") && (Sid)null == null, "operators of Sid");
        Add(!Acl.Null.Equals(Acl.Absent) && !Acl.Null.Equals(new Acl()), "the ACLs without a list");
    }

    /// <summary>No value has a setter, and no array of a value is handed out.</summary>
    private static void AreFixed()
    {
        foreach (Type type in typeof(Sid).Assembly.GetExportedTypes())
        {
            foreach (PropertyInfo property in type.GetProperties(Own))
            {
                bool isArray = property.PropertyType.IsArray && type != typeof(Ending);
                Add(property.GetSetMethod() == null && !isArray, type.Name + "." + property.Name + " can be set");
            }
            Add(type.IsEnum || type.GetFields().All(field => field.IsInitOnly), type.Name + " has a field");
            Add(type.IsSealed || type.GetConstructors().Length == 0, type.Name + " can be inherited");
        }
        var sid = new Sid("BA");
        sid.GetBinaryForm()[0] = 9;
        var data = new byte[20];
        sid.GetBinaryForm(data, 2);
        Add(sid.Value == "S-1-5-32-544" && data[2] == 1 && sid.BinaryLength == 16, "bytes of a SID");
        var aces = new List<Ace> { Ace.Parse("(A;;FR;;;BU)") };
        var acl = new Acl(aces);
        aces.Clear();
        Add(acl.Count == 1, "an ACL of a list that changes");
        byte[] given = new SecurityDescriptor("O:BA").GetBinaryForm();
        given[2] = 0xff;
        given[20] = 7;
        FaultException fault = null;
        try
        {
            new SecurityDescriptor(given);
        }
        catch (FaultException found)
        {
            fault = found;
        }
        given[20] = 1;
        Add(fault.Number == 9 && fault.Place.Offset == 20 && fault.Message.Contains("at byte 20"),
            "a fault of bytes that change");
    }

    private static void TryAcls()
    {
        foreach (Acl acl in new[] { Acl.Null, Acl.Absent })
        {
            Refuses<NoAcesException>(acl + ".Count", () => acl.Count.ToString());
            Refuses<NoAcesException>(acl + "[0]", () => acl[0].ToString());
            Refuses<NoAcesException>("foreach of " + acl, () => acl.ToList());
        }
        SecurityDescriptor two = new SecurityDescriptor("D:(A;;FR;;;BU)(D;;FW;;;WD)");
        Add(two.DiscretionaryAcl.Count == 2 && two.DiscretionaryAcl[1].SecurityIdentifier.Alias == "WD", "two ACEs");
        Add(two.SystemAcl.IsAbsent && new SecurityDescriptor("D:NO_ACCESS_CONTROL").DiscretionaryAcl.IsNull, "states");
        Refuses<IndexOutOfRangeException>("an ACE too many", () => two.DiscretionaryAcl[2].ToString());
    }

    private static void TryColumns()
    {
        byte[] data = { (byte)'D', (byte)':', (byte)'D' };
        int[] offsets = { 0, 2, 3, -1 };
        var column = new Column(data, offsets);
        data[0] = 0;
        offsets[1] = 0;
        Column made = column.Convert(Conversion.FromSddl);
        Add(made.Count == 3 && made.GetRow(0).SequenceEqual(new SecurityDescriptor("D:").GetBinaryForm()), "a row");
        Add(made.GetRow(1).Length == 0 && ((FaultException)made.Faults[1]).Number == 20, "a row without an answer");
        Add(((ArgumentException)made.Faults[2]).ParamName == "offsets" && made.Faults.Count == 2, "offsets that lie");
        Refuses<ArgumentNullException>("no bytes", () => new Column(null, offsets));
        Refuses<ArgumentNullException>("no list of offsets", () => new Column(data, null));
        Refuses<ArgumentFaultException>("no offset", () => new Column(data, new int[0]).Convert(Conversion.Normalize));
        Refuses<ArgumentFaultException>("a conversion", () => column.Convert((Conversion)3));
        Refuses<ArgumentFaultException>("no offset",
                                        () => new Column(data, new int[0]).Derive(new Sid("BA"), new Sid("SY")));
        Refuses<ArgumentNullException>("no owner", () => made.Derive(null, new Sid("SY")));
        Refuses<ArgumentFaultException>("a kind", () => made.Derive(new Sid("BA"), new Sid("SY"), (ObjectKind)2));
        Refuses<ArgumentNullException>("no column", () => new Checker(Token.Of("BU"), 1).CheckMany((Column)null));
    }

    private static void TryVerdicts()
    {
        Add(!default(Verdict).IsGranted && default(Verdict).Fault == null, "a verdict of nobody");
        var token = Token.Of("BU", "WD");
        var bad = new byte[19];
        var checker = new Checker(token, 1);
        byte[] good = new SecurityDescriptor("D:(A;;FR;;;BU)").GetBinaryForm();
        Verdict[] many = checker.CheckMany(new[] { good, bad }).ToArray();
        Add(many[0].IsGranted && !many[1].IsGranted && many[1].Fault.Number == 5 && many[1].Mask == 0, "many verdicts");
        SecurityDescriptor whole = new SecurityDescriptor(good);
        Add(checker.CheckMany(Enumerable.Repeat(whole, 2050)).Count(one => one.IsGranted) == 2050, "2,050 verdicts");
        Refuses<ArgumentNullException>("one that is null", () => checker.CheckMany(new[] { good, null }).ToList());
        Refuses<FaultException>("a check of no descriptor", () => checker.Check(bad));
        Refuses<FaultException>("a check of no right", () => new SecurityDescriptor("D:").Check(token, 0));
        Verdict denied = new SecurityDescriptor("O:BAD:(A;;FR;;;BU)").Check(token, 3);
        Add(!denied.IsGranted && denied.Mask == 2 && denied.ToString() == "denied 0x00000002", "a denial");
    }

    private static void TryArguments()
    {
        var sid = new Sid("BU");
        var bad = new byte[1];
        Refuses<ArgumentNullException>("no text", () => new SecurityDescriptor((string)null));
        Refuses<ArgumentNullException>("no bytes", () => new SecurityDescriptor((byte[])null));
        Refuses<ArgumentNullException>("no ACL", () => new SecurityDescriptor(0, null, null, null, Acl.Null));
        Refuses<ArgumentNullException>("no SID", () => new Ace(AceType.AccessAllowed, 0, 1, null));
        Refuses<ArgumentNullException>("no SIDs", () => new Token(null));
        Refuses<ArgumentNullException>("a SID that is null", () => new Token(new[] { sid, null }));
        Refuses<ArgumentNullException>("an ACE that is null", () => new Acl((Ace)null));
        Refuses<ArgumentNullException>("a change that is null", () => new SecurityDescriptor("").Edit((Change)null));
        Refuses<ArgumentFaultException>("an ACE of no type", () => new Ace((AceType)3, 0, 1, sid));
        Refuses<ArgumentFaultException>("an ACE with a type", () => new Ace(0, 0, 1, sid, Guid.Empty));
        Refuses<ArgumentFaultException>("an ACE with flag 0x20", () => new Ace(0, (AceFlags)0x20, 1, sid));
        Refuses<ArgumentFaultException>("bytes behind a SID", () => new Sid(sid.GetBinaryForm().Concat(bad).ToArray()));
        Refuses<ArgumentFaultException>("no bytes of a SID", () => new Sid(new byte[0]));
        Refuses<ArgumentOutOfRangeException>("an offset below 0", () => new Sid(sid.GetBinaryForm(), -1));
        Refuses<ArgumentOutOfRangeException>("an offset too high", () => new SecurityDescriptor(new byte[20], 21));
        Refuses<ArgumentOutOfRangeException>("a place below 0", () => Change.Take(Part.SystemAcl, -1));
        Refuses<ArgumentOutOfRangeException>("no state", () => Change.State(Part.DiscretionaryAcl, (AclState)256));
        Refuses<ArgumentOutOfRangeException>("no control word", () => Change.Control(0, (ControlFlags)0x10000));
        Refuses<ArgumentOutOfRangeException>("no control word of a descriptor", () =>
            new SecurityDescriptor((ControlFlags)0x10000, null, null, Acl.Absent, Acl.Null));
        Refuses<ArgumentOutOfRangeException>("a privilege that is a level",
                                             () => new Token(new[] { sid }, null, null, (Privileges)1));
        Refuses<ArgumentFaultException>("no privilege", () =>
            new SecurityDescriptor("D:").Check(new Token(new[] { sid }, null, null, (Privileges)8), 1));
        Refuses<ArgumentFaultException>("no mapping", () =>
            new SecurityDescriptor("D:").Check(Token.Of(), 1, false, (Mapping)3));
        Refuses<ArgumentFaultException>("1,025 SIDs", () => new Token(Enumerable.Repeat(sid, 1025)));
        Refuses<ArgumentFaultException>("flag 0x20", () => Sddl.FormatFlags((AceFlags)0x20));
        Refuses<ArgumentFaultException>("a change of no ACL", () =>
            new SecurityDescriptor("").Edit(Change.Order(Part.Owner)));
        Refuses<ArgumentFaultException>("a match of nothing", () =>
            new SecurityDescriptor("").Edit(Change.TakeEach(Part.SystemAcl, new Match())));
        Refuses<ArgumentFaultException>("no fault", () => Library.FaultName(0));
        Add(new Token(Enumerable.Repeat(sid, 1024)).Sids.Count == 1024, "1,024 SIDs");
        try
        {
            new SecurityDescriptor("D:").Edit(Change.Order(Part.SystemAcl), Change.Control(ControlFlags.SelfRelative));
        }
        catch (ArgumentFaultException fault)
        {
            Add(fault.ParamName == "changes" && fault.Index == 1, "the second change is none");
        }
    }

    private static void TryTexts()
    {
        var domain = new Sid("S-1-5-21-1-2-3");
        Add(new Sid("DA", domain).Value == "S-1-5-21-1-2-3-512", "a relative alias");
        Add(new Sid("DA", domain).Alias == null, "no alias without a domain");
        Add(new Sid("DA", domain).GetAlias(domain) == "DA", "an alias under a domain");
        Add(new SecurityDescriptor("O:DA", domain).GetSddlForm(domain) == "O:DA", "an owner under a domain");
        Add(new SecurityDescriptor("O:BA").GetSddlForm(numeric: true) == "O:S-1-5-32-544", "numbers");
        Add(Ace.Parse("(A;OICI;FR;;;BU)").ToString() == "(A;OICI;FR;;;BU)", "the text of an ACE");
        Add(Sddl.ParseRights("FRWD") == 0x160089 && Sddl.FormatRights(0x120089) == "FR", "rights");
        Add(Sddl.FormatRights(1, true) == "NW" && Sddl.ParseRights("010") == 8, "rights of a label, and octal ones");
        Add(Sddl.ParseFlags("") == 0 && Sddl.FormatFlags(AceFlags.ObjectInherit | AceFlags.Inherited) == "OIID",
            "flags");
        SecurityDescriptor folder = new SecurityDescriptor("D:(A;CI;GR;;;BU)");
        SecurityDescriptor made = folder.Derive(new Sid("BA"), new Sid("SY"), ObjectKind.Container);
        Add(made.ToString() == "O:BAG:SYD:AI(A;ID;FR;;;BU)(A;CIIOID;GR;;;BU)", "what is derived: " + made);
        Edited edited = new SecurityDescriptor("D:PAI(A;;FR;;;WD)(A;ID;FA;;;BA)").Edit(
            Change.TakeEach(Part.DiscretionaryAcl, new Match(sid: new Sid("WD"))),
            Change.PutByOrder(Part.DiscretionaryAcl, Ace.Parse("(D;;DC;;;BU)")));
        Add(edited.Descriptor.ToString() == "D:PAI(D;;DC;;;BU)(A;ID;FA;;;BA)", "an edit: " + edited.Descriptor);
        Add(edited.Touched.SequenceEqual(new[] { 1, 1 }), "the counts of an edit");
    }
}
