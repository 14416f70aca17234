using System.Reflection;
using System.Runtime.InteropServices;

[assembly: AssemblyTitle("Sdtool")]
[assembly: AssemblyDescription("Windows security descriptors and SDDL, by the library libsdtool")]
[assembly: AssemblyProduct("sdtool")]
[assembly: AssemblyVersion("0.1.0.0")]
[assembly: AssemblyFileVersion("0.1.0.0")]
[assembly: AssemblyInformationalVersion("0.1.0")]
[assembly: ComVisible(false)]
