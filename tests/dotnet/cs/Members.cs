using System;
using System.Linq;
using System.Reflection;
using Sdtool;

/// <summary>Prints the public types of the assembly, each with its members.</summary>
internal static class Members
{
    private static void Main()
    {
        foreach (Type type in typeof(Sid).Assembly.GetExportedTypes())
        {
            Console.WriteLine(type.FullName + " new " +
                              string.Join(" ", type.GetMembers().Select(member => member.Name).Distinct()));
        }
    }
}
