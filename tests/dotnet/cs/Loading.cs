using System;
using Sdtool;

/// <summary>Prints the number of the library's version, or why it can't be used, twice.</summary>
internal static class Loading
{
    private static void Main()
    {
        for (int round = 0; round < 2; round++)
        {
            try
            {
                Console.WriteLine("loaded " + Library.VersionNumber);
            }
            catch (Exception problem)
            {
                Console.WriteLine(problem.GetType() + " " + problem.Message);
            }
        }
    }
}
