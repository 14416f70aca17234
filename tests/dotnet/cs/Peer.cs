using System;
using System.Collections.Generic;
using System.Linq;
using System.Security.AccessControl;
using System.Security.Principal;

/// <summary>
/// Prints what Mono's RawSecurityDescriptor finds in each line of standard input, as Requests.cs prints parts: 'bytes'
/// and hex digits, or 'text ' and SDDL; and the exception where it refuses.
/// </summary>
internal static class Peer
{
    private static void Main()
    {
        for (string line = Console.ReadLine(); line != null; line = Console.ReadLine())
        {
            Console.WriteLine(Answer(line.Substring(6), line.StartsWith("bytes ")));
        }
    }

    private static string Answer(string given, bool isBytes)
    {
        try
        {
            return Parts(isBytes ? new RawSecurityDescriptor(Bytes(given), 0) : Read(given));
        }
        catch (Exception problem)
        {
            return problem.GetType().Name;
        }
    }

    /// <summary>The descriptor of a text, which Mono first writes to bytes.</summary>
    private static RawSecurityDescriptor Read(string text)
    {
        var read = new RawSecurityDescriptor(text);
        var data = new byte[read.BinaryLength];
        read.GetBinaryForm(data, 0);
        return new RawSecurityDescriptor(data, 0);
    }

    private static byte[] Bytes(string word)
    {
        return Enumerable.Range(0, word.Length / 2).Select(at => Convert.ToByte(word.Substring(2 * at, 2), 16))
                         .ToArray();
    }

    private static string Parts(RawSecurityDescriptor descriptor)
    {
        ControlFlags flags = descriptor.ControlFlags;
        return string.Join(" ", SidOf(descriptor.Owner), SidOf(descriptor.Group),
                           AclOf(descriptor.SystemAcl, (flags & ControlFlags.SystemAclPresent) != 0),
                           AclOf(descriptor.DiscretionaryAcl, (flags & ControlFlags.DiscretionaryAclPresent) != 0),
                           (int)flags & 0xffff, descriptor.ResourceManagerControl);
    }

    private static string AclOf(RawAcl acl, bool isPresent)
    {
        if (acl == null)
        {
            return isPresent ? "null" : "absent";
        }
        IEnumerable<string> aces = Enumerable.Range(0, acl.Count).Select(at => AceOf((QualifiedAce)acl[at]));
        return "[" + string.Join(";", aces) + "]";
    }

    private static string AceOf(QualifiedAce ace)
    {
        var typed = ace as ObjectAce;
        ObjectAceFlags there = typed == null ? ObjectAceFlags.None : typed.ObjectAceFlags;
        bool hasType = (there & ObjectAceFlags.ObjectAceTypePresent) != 0;
        bool hasInherited = (there & ObjectAceFlags.InheritedObjectAceTypePresent) != 0;
        return string.Join(",", (int)ace.AceType, (int)ace.AceFlags, (uint)ace.AccessMask,
                           SidOf(ace.SecurityIdentifier), hasType ? Hex(typed.ObjectAceType.ToByteArray()) : "-",
                           hasInherited ? Hex(typed.InheritedObjectAceType.ToByteArray()) : "-");
    }

    private static string SidOf(SecurityIdentifier sid)
    {
        if (sid == null)
        {
            return "-";
        }
        var data = new byte[sid.BinaryLength];
        sid.GetBinaryForm(data, 0);
        return Hex(data);
    }

    private static string Hex(byte[] data)
    {
        return BitConverter.ToString(data).Replace("-", "").ToLowerInvariant();
    }
}
