using System;
using System.Collections.Generic;
using System.IO;
using System.Runtime.InteropServices;

namespace Sdtool
{
    /// <summary>The native library is missing, for another processor, or of another version.</summary>
    public sealed class LibraryException : DllNotFoundException
    {
        internal LibraryException(string message) : base(message)
        {
        }
    }

    /// <summary>Opens the native library once, by its absolute path.</summary>
    internal static class Loader
    {
        private const string SystemName = "libsdtool.so.0";
        private static readonly bool IsWindows = Path.DirectorySeparatorChar == '\\';
        private static readonly string[] Names = IsWindows
            ? new[] { "sdtool.dll", @"runtimes\win-x64\native\sdtool.dll" }
            : new[]
            {
                SystemName, "runtimes/linux-x64/native/" + SystemName, "runtimes/linux-arm64/native/" + SystemName
            };
        private static readonly object Opening = new object();
        private static volatile Native.Calls calls;

        internal static Native.Calls Calls
        {
            get { return calls ?? Open(); }
        }

        private static Native.Calls Open()
        {
            lock (Opening)
            {
                return calls ?? (calls = OpenFirst());
            }
        }

        private static Native.Calls OpenFirst()
        {
            if (IntPtr.Size != sizeof(ulong))
            {
                throw new LibraryException("sdtool needs a process of 64 bits");
            }
            var problems = new List<string>();
            foreach (string place in Places(problems))
            {
                try
                {
                    return CallsOf(Handle(place));
                }
                catch (LibraryException problem)
                {
                    problems.Add(place + ": " + problem.Message);
                }
            }
            throw new LibraryException("sdtool finds no native library: " + string.Join("; ", problems));
        }

        /// <summary>The files that are there, and on Linux the name that the system knows.</summary>
        private static IEnumerable<string> Places(List<string> problems)
        {
            foreach (string folder in Folders())
            {
                foreach (string name in Names)
                {
                    string path = Path.Combine(folder, name);
                    if (File.Exists(path))
                    {
                        yield return path;
                    }
                }
                problems.Add("It was looked for in " + folder);
            }
            if (IsWindows)
            {
                yield break; // which would look in the current folder too
            }
            if (HasCurrentFolder(Environment.GetEnvironmentVariable("LD_LIBRARY_PATH")))
            {
                problems.Add("LD_LIBRARY_PATH has a relative folder, so the system is not asked");
                yield break;
            }
            yield return SystemName;
        }

        private static IEnumerable<string> Folders()
        {
            string own = typeof(Loader).Assembly.Location; // empty where the assembly is in another file
            string first = string.IsNullOrEmpty(own) ? null : Path.GetDirectoryName(Path.GetFullPath(own));
            if (first != null)
            {
                yield return first;
            }
            string program = Path.GetFullPath(AppDomain.CurrentDomain.BaseDirectory);
            if (program.TrimEnd(Path.DirectorySeparatorChar) != first)
            {
                yield return program;
            }
        }

        /// <summary>Whether the system would look in the current folder, as it does for an empty item.</summary>
        private static bool HasCurrentFolder(string folders)
        {
            return !string.IsNullOrEmpty(folders) && Array.Exists(folders.Split(':', ';'), one => !one.StartsWith("/"));
        }

        private static IntPtr Handle(string place)
        {
            try
            {
                IntPtr found = IsWindows ? OfWindows.Load(place, IntPtr.Zero, OfWindows.Folders)
                                         : OfLinux.Open(place, OfLinux.BindNow);
                if (found != IntPtr.Zero)
                {
                    return found;
                }
            }
            catch (TypeLoadException problem) // of a system that has no such loader
            {
                throw new LibraryException(problem.Message);
            }
            throw new LibraryException(IsWindows ? "error " + Marshal.GetLastWin32Error() + " of the system's loader"
                                                 : Marshal.PtrToStringAnsi(OfLinux.Error()));
        }

        private static Native.Calls CallsOf(IntPtr library)
        {
            var found = new Native.Calls(name => Address(library, name));
            uint version = found.VersionNumber();
            if (version < Native.SDTOOL_VERSION)
            {
                throw new LibraryException("its version is " + version + ", below " + Native.SDTOOL_VERSION);
            }
            return found;
        }

        private static IntPtr Address(IntPtr library, string name)
        {
            IntPtr found = IsWindows ? OfWindows.Find(library, name) : OfLinux.Find(library, name);
            if (found == IntPtr.Zero)
            {
                throw new LibraryException("it is another version, without " + name);
            }
            return found;
        }

        private static class OfWindows
        {
            /// <summary>The folder of the file and the system's, for what the file itself needs.</summary>
            internal const uint Folders = 0x100 | 0x800;

            [DllImport("kernel32", EntryPoint = "LoadLibraryExW", ExactSpelling = true, CharSet = CharSet.Unicode,
                       SetLastError = true)]
            [DefaultDllImportSearchPaths(DllImportSearchPath.System32)]
            internal static extern IntPtr Load(string path, IntPtr none, uint flags);

            [DllImport("kernel32", EntryPoint = "GetProcAddress", ExactSpelling = true, BestFitMapping = false)]
            [DefaultDllImportSearchPaths(DllImportSearchPath.System32)]
            internal static extern IntPtr Find(IntPtr library, [MarshalAs(UnmanagedType.LPStr)] string name);
        }

        private static class OfLinux
        {
            internal const int BindNow = 2;

            [DllImport("libdl.so.2", EntryPoint = "dlopen", BestFitMapping = false)]
            [DefaultDllImportSearchPaths(DllImportSearchPath.System32)]
            internal static extern IntPtr Open([MarshalAs(UnmanagedType.LPStr)] string path, int flags);

            [DllImport("libdl.so.2", EntryPoint = "dlsym", BestFitMapping = false)]
            [DefaultDllImportSearchPaths(DllImportSearchPath.System32)]
            internal static extern IntPtr Find(IntPtr library, [MarshalAs(UnmanagedType.LPStr)] string name);

            [DllImport("libdl.so.2", EntryPoint = "dlerror")]
            [DefaultDllImportSearchPaths(DllImportSearchPath.System32)]
            internal static extern IntPtr Error();
        }
    }
}
