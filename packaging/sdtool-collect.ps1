<#
.SYNOPSIS
Writes the permissions of files, of a machine or of a domain as JSON lines, which sdtool-audit reads.
.DESCRIPTION
It needs Windows PowerShell 5.1 and nothing else, and changes nothing. Each line has Name, Kind and Sddl; Sddl is SDDL,
or the bytes of the descriptor in hex. What can't be read has a line with Sddl null and the Reason. The last line has
the number of lines between.
.PARAMETER Path
Folders, such as D:\Data or \\SERVER\SHARE: they and all that is in them. Links are listed, and not followed.
.PARAMETER Registry
Keys, such as HKLM\SOFTWARE: they and all keys below.
.PARAMETER Machine
The machine's services, shares, printers, scheduled tasks, event logs, WMI namespaces, and permissions of COM.
.PARAMETER Templates
The certificate templates of the forest.
.PARAMETER Domain
All objects of the domain.
.EXAMPLE
powershell -ExecutionPolicy Bypass -File sdtool-collect.ps1 -Path D:\Data -Machine -Out acls.jsonl
#>
param([string[]]$Path = @(), [string[]]$Registry = @(), [switch]$Machine, [switch]$Templates, [switch]$Domain,
      [Parameter(Mandatory = $true)][string]$Out)
$ErrorActionPreference = 'Stop'

Add-Type -AssemblyName System.ServiceProcess, System.DirectoryServices, System.Management
Add-Type -TypeDefinition @'
using System;
using System.Collections.Generic;
using System.ComponentModel;
using System.Runtime.InteropServices;
using System.Text;

public static class SdtoolCollect {
    const uint OwnerGroupDacl = 7, ReadControl = 0x20000, ShareAll = 7, OpenExisting = 3,
        OpenLinksAndFolders = 0x02200000;
    const int Folder = 0x10, Link = 0x400, FileObject = 1, NoMoreFiles = 18;

    [StructLayout(LayoutKind.Sequential, CharSet = CharSet.Unicode, Pack = 4)]
    struct Found {
        public int Attributes; public long Created, Read, Written; public int SizeHigh, SizeLow, Tag, Unused;
        [MarshalAs(UnmanagedType.ByValTStr, SizeConst = 260)] public string Name;
        [MarshalAs(UnmanagedType.ByValTStr, SizeConst = 14)] public string Short;
    }
    [DllImport("kernel32", CharSet = CharSet.Unicode, SetLastError = true)]
    static extern IntPtr FindFirstFileW(string path, out Found found);
    [DllImport("kernel32", CharSet = CharSet.Unicode, SetLastError = true)]
    static extern bool FindNextFileW(IntPtr handle, out Found found);
    [DllImport("kernel32")] static extern bool FindClose(IntPtr handle);
    [DllImport("kernel32", CharSet = CharSet.Unicode, SetLastError = true)]
    static extern int GetFileAttributesW(string path);
    [DllImport("kernel32", CharSet = CharSet.Unicode, SetLastError = true)]
    static extern IntPtr CreateFileW(string path, uint access, uint share, IntPtr security, uint how, uint flags,
                                     IntPtr like);
    [DllImport("kernel32")] static extern bool CloseHandle(IntPtr handle);
    [DllImport("kernel32")] static extern IntPtr LocalFree(IntPtr memory);
    [DllImport("advapi32", CharSet = CharSet.Unicode)]
    static extern int GetNamedSecurityInfoW(string name, int type, uint parts, IntPtr owner, IntPtr group, IntPtr dacl,
                                            IntPtr sacl, out IntPtr descriptor);
    [DllImport("advapi32")]
    static extern int GetSecurityInfo(IntPtr handle, int type, uint parts, IntPtr owner, IntPtr group, IntPtr dacl,
                                      IntPtr sacl, out IntPtr descriptor);
    [DllImport("advapi32")] static extern int GetSecurityDescriptorLength(IntPtr descriptor);

    static string Digits(int error, IntPtr descriptor) {
        if (error != 0) throw new Win32Exception(error);
        if (descriptor == IntPtr.Zero) throw new Win32Exception(0, "there is no descriptor");
        var bytes = new byte[GetSecurityDescriptorLength(descriptor)];
        Marshal.Copy(descriptor, bytes, 0, bytes.Length);
        LocalFree(descriptor);
        return BitConverter.ToString(bytes).Replace("-", "");
    }

    // Of a service (2), a printer (3), a key (4) or a share (5).
    public static string OfName(string name, int type) {
        IntPtr found, none = IntPtr.Zero;
        return Digits(GetNamedSecurityInfoW(name, type, OwnerGroupDacl, none, none, none, none, out found), found);
    }

    static string OfFile(string path) {
        IntPtr found, none = IntPtr.Zero, handle = CreateFileW(path, ReadControl, ShareAll, none, OpenExisting,
                                                              OpenLinksAndFolders, none);
        if (handle == new IntPtr(-1)) throw new Win32Exception();
        try {
            int error = GetSecurityInfo(handle, FileObject, OwnerGroupDacl, none, none, none, none, out found);
            return Digits(error, found);
        } finally { CloseHandle(handle); }
    }

    // A line of JSON in ASCII, so that no name is changed by an encoding.
    public static string Line(string name, string kind, string sddl, string reason, string classes) {
        var text = new StringBuilder("{\"Name\":");
        Write(text, name);
        text.Append(",\"Kind\":"); Write(text, kind);
        text.Append(",\"Sddl\":"); Write(text, sddl);
        if (reason != null) { text.Append(",\"Reason\":"); Write(text, reason); }
        if (classes != null) { text.Append(",\"ObjectClass\":"); Write(text, classes); }
        return text.Append("}").ToString();
    }

    static void Write(StringBuilder text, string value) {
        if (value == null) { text.Append("null"); return; }
        text.Append('"');
        foreach (char one in value)
            if (one < ' ' || one > '~' || one == '"' || one == '\\') text.AppendFormat("\\u{0:x4}", (int)one);
            else text.Append(one);
        text.Append('"');
    }

    static string Of(string path, string shown, string kind) {
        try { return Line(shown, kind, OfFile(path), null, null); }
        catch (Win32Exception error) { return Line(shown, kind, null, error.Message, null); }
    }

    // A folder or a file and all below, with paths of any length.
    public static IEnumerable<string> Tree(string path) {
        bool isShare = path.StartsWith(@"\\");
        string front = isShare ? @"\\?\UNC" : @"\\?\", root = path.TrimEnd('\\');
        if (root.EndsWith(":")) root += "\\";
        Func<string, string> whole = one => front + (isShare ? one.Substring(1) : one);
        int attributes = GetFileAttributesW(whole(root));
        if (attributes == -1) {
            yield return Line(root, "folder", null, new Win32Exception().Message, null);
            yield break;
        }
        yield return Of(whole(root), root, (attributes & Folder) != 0 ? "folder" : "file");
        var waiting = new Stack<string>();
        if ((attributes & Folder) != 0) waiting.Push(root);
        while (waiting.Count > 0) {
            string folder = waiting.Pop().TrimEnd('\\');
            Found found;
            IntPtr handle = FindFirstFileW(whole(folder) + @"\*", out found);
            int error = Marshal.GetLastWin32Error();
            bool more = handle != new IntPtr(-1);
            while (more) {
                if (found.Name != "." && found.Name != "..") {
                    string shown = folder + "\\" + found.Name;
                    bool isFolder = (found.Attributes & Folder) != 0;
                    yield return Of(whole(shown), shown, isFolder ? "folder" : "file");
                    if (isFolder && (found.Attributes & Link) == 0) waiting.Push(shown);
                }
                more = FindNextFileW(handle, out found);
                error = Marshal.GetLastWin32Error();
            }
            if (handle != new IntPtr(-1)) FindClose(handle);
            if (error != NoMoreFiles && error != 2)
                yield return Line(folder + @"\*", "file", null, new Win32Exception(error).Message, null);
        }
    }
}
'@

function Get-FullPath($path) { $ExecutionContext.SessionState.Path.GetUnresolvedProviderPathFromPSPath($path) }
$writer = New-Object IO.StreamWriter((Get-FullPath $Out), $false, (New-Object Text.ASCIIEncoding))
$count = 0
function Write-Text($line) {
    $writer.WriteLine($line)
    $script:count++
}
function Write-Line($name, $kind, $sddl, $reason, $classes) {
    # PowerShell makes an empty text of $null where a text is wanted.
    $nothing = [NullString]::Value
    if (-not $reason) { $reason = 'there is no descriptor' }
    $texts = @($sddl, $reason, $classes)
    if ($sddl) { $texts[1] = $nothing } else { $texts[0] = $nothing }
    if (-not $classes) { $texts[2] = $nothing }
    Write-Text ([SdtoolCollect]::Line($name, $kind, $texts[0], $texts[1], $texts[2]))
}
# Runs a block that gives the descriptor of an object. What fails is a line too.
function Write-Object($name, $kind, $block, $classes) {
    $sddl = $reason = $null
    try { $sddl = & $block } catch { $reason = $_.Exception.GetBaseException().Message }
    Write-Line $name $kind $sddl $reason $classes
}
# Runs a block that lists objects. If it fails, what it would have listed is one line.
function Write-List($what, $kind, $block) {
    try { & $block } catch { Write-Line "${what}: the rest" $kind $null $_.Exception.GetBaseException().Message }
}
function Get-Hex($bytes) { [BitConverter]::ToString([byte[]]$bytes).Replace('-', '') }

$hives = @{ HKLM = 'LocalMachine', 'MACHINE'; HKCU = 'CurrentUser', 'CURRENT_USER'; HKU = 'Users', 'USERS'
            HKCR = 'ClassesRoot', 'CLASSES_ROOT' }
function Open-Key($key) {
    $hive, $below = $key.Split([char[]]'\', 2)
    $base = [Microsoft.Win32.RegistryKey]::OpenBaseKey($hives[$hive.TrimEnd(':')][0], 'Default')
    if ($below) { $base.OpenSubKey($below) } else { $base }
}
function Write-Keys($key) {
    $waiting = New-Object Collections.Stack
    $waiting.Push($key)
    while ($waiting.Count) {
        $one = $waiting.Pop()
        $hive, $below = $one.Split([char[]]'\', 2)
        Write-Object $one 'key' { [SdtoolCollect]::OfName("$($hives[$hive.TrimEnd(':')][1])\$below".TrimEnd('\'), 4) }
        Write-List "$one\*" 'key' {
            $opened = Open-Key $one
            if (-not $opened) { throw 'the key is not there, or may not be opened' }
            foreach ($name in $opened.GetSubKeyNames()) { $waiting.Push("$one\$name") }
            $opened.Close()
        }
    }
}
function Write-Values($key, $names) {
    Write-List $key 'com' {
        $opened = Open-Key $key
        if (-not $opened) { throw 'the key is not there, or may not be opened' }
        foreach ($name in $names) {
            $value = $opened.GetValue($name)
            if ($null -ne $value) { Write-Object "${key}: $name" 'com' { Get-Hex $value } }
        }
        $opened.Close()
    }
}
function Write-Tasks($folder) {
    Write-Object $folder.Path 'task' { $folder.GetSecurityDescriptor(7) }
    Write-List "$($folder.Path)\*" 'task' {
        foreach ($task in $folder.GetTasks(1)) { Write-Object $task.Path 'task' { $task.GetSecurityDescriptor(7) } }
        foreach ($below in $folder.GetFolders(0)) { Write-Tasks $below }
    }
}
function Write-Namespaces($name) {
    Write-Object $name 'wmi' {
        $security = New-Object Management.ManagementClass("\\.\${name}:__SystemSecurity")
        $found = $security.InvokeMethod('GetSD', $null, $null)
        if ($found['ReturnValue']) { throw "GetSD gives $($found['ReturnValue'])" }
        Get-Hex $found['SD']
    }
    Write-List "$name\*" 'wmi' {
        foreach ($below in (New-Object Management.ManagementClass("\\.\${name}:__NAMESPACE")).GetInstances()) {
            Write-Namespaces "$name\$($below['Name'])"
        }
    }
}
function Write-Entries($base, $filter, $kind) {
    Write-List $base $kind {
        $searcher = New-Object DirectoryServices.DirectorySearcher([adsi]"LDAP://$base", $filter)
        $searcher.PageSize = 500
        $searcher.SecurityMasks = 'Owner, Group, Dacl'
        $null = $searcher.PropertiesToLoad.AddRange(@('distinguishedName', 'nTSecurityDescriptor', 'objectClass'))
        $found = $searcher.FindAll()
        foreach ($one in $found) {
            Write-Object ([string]$one.Properties['distinguishedname'][0]) $kind {
                $bytes = $one.Properties['ntsecuritydescriptor']
                if ($bytes.Count) { Get-Hex $bytes[0] }
            } (@($one.Properties['objectclass']) -join ' ')
        }
        $found.Dispose()
    }
}

try {
    $writer.WriteLine('{"sdtool-collect": 1}')
    foreach ($one in $Path) { foreach ($line in [SdtoolCollect]::Tree((Get-FullPath $one))) { Write-Text $line } }
    foreach ($one in $Registry) { Write-Keys $one.TrimEnd('\') }
    if ($Machine) {
        Write-Object 'the service manager' 'service-manager' {
            (& sc.exe sdshow scmanager | Where-Object { $_ }) -join ''
        }
        Write-List 'services' 'service' {
            foreach ($one in [ServiceProcess.ServiceController]::GetServices() +
                             [ServiceProcess.ServiceController]::GetDevices()) {
                Write-Object $one.ServiceName 'service' { [SdtoolCollect]::OfName($one.ServiceName, 2) }
            }
        }
        Write-List 'shares' 'share' {
            foreach ($one in Get-WmiObject Win32_Share) {
                Write-Object "\\$env:COMPUTERNAME\$($one.Name)" 'share' { [SdtoolCollect]::OfName($one.Name, 5) }
            }
        }
        Write-List 'printers' 'printer' {
            foreach ($one in Get-WmiObject Win32_Printer) {
                Write-Object $one.Name 'printer' { [SdtoolCollect]::OfName($one.Name, 3) }
            }
        }
        Write-List 'tasks' 'task' {
            $service = New-Object -ComObject Schedule.Service
            $service.Connect()
            Write-Tasks $service.GetFolder('\')
        }
        Write-List 'event logs' 'log' {
            foreach ($one in [Diagnostics.Eventing.Reader.EventLogSession]::GlobalSession.GetLogNames()) {
                Write-Object $one 'log' {
                    (New-Object Diagnostics.Eventing.Reader.EventLogConfiguration $one).SecurityDescriptor
                }
            }
        }
        Write-Namespaces 'root'
        $restricting = 'MachineLaunchRestriction', 'MachineAccessRestriction'
        Write-Values 'HKLM\SOFTWARE\Microsoft\Ole' ('DefaultLaunchPermission', 'DefaultAccessPermission' + $restricting)
        Write-List 'AppID' 'com' {
            foreach ($one in (Open-Key 'HKLM\SOFTWARE\Classes\AppID').GetSubKeyNames()) {
                Write-Values "HKLM\SOFTWARE\Classes\AppID\$one" ('LaunchPermission', 'AccessPermission')
            }
        }
    }
    if ($Templates -or $Domain) {
        $root = [adsi]'LDAP://RootDSE'
        if ($Templates) {
            Write-Entries ("CN=Certificate Templates,CN=Public Key Services,CN=Services," +
                           $root.configurationNamingContext) '(objectClass=pKICertificateTemplate)' 'template'
        }
        if ($Domain) { Write-Entries ([string]$root.defaultNamingContext) '(objectClass=*)' 'ds' }
    }
    $writer.WriteLine('{"Objects": ' + $count + '}')
} finally {
    $writer.Close()
}
