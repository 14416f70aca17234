# Commands over the assembly Sdtool, which has all answers from its native library. A call of .NET that fails only ends
# its own line of a script, so each of them is in a try whose catch ends the command.
Set-StrictMode -Version Latest

# The descriptor of a command's input. GetSecurityDescriptorBinaryForm is what Get-Acl's objects have on each system. Of
# other objects, such as those of Import-Csv and Get-ADObject, it is the one property that has a descriptor.
function ConvertTo-SdtoolDescriptor {
    [CmdletBinding()]
    [OutputType('Sdtool.SecurityDescriptor')]
    param(
        [Parameter(Mandatory = $true)]
        [AllowNull()]
        [AllowEmptyString()]
        [AllowEmptyCollection()]
        [object] $InputObject,

        [AllowNull()]
        [Sdtool.Sid] $DomainSid
    )
    if ($InputObject -is [Sdtool.SecurityDescriptor]) {
        return $InputObject
    }
    if ($InputObject -is [Sdtool.Edited]) {
        return $InputObject.Descriptor
    }
    if ($InputObject -is [byte[]]) {
        return [Sdtool.SecurityDescriptor]::new([byte[]] $InputObject)
    }
    if ($InputObject -is [string]) {
        if ($InputObject -eq '') {
            throw [System.ArgumentException]::new('The text is empty: in SDDL that grants everything.')
        }
        return [Sdtool.SecurityDescriptor]::new([string] $InputObject, $DomainSid)
    }
    if ($InputObject -is [System.Security.AccessControl.ObjectSecurity]) {
        return [Sdtool.SecurityDescriptor]::new([byte[]] $InputObject.GetSecurityDescriptorBinaryForm())
    }
    $named = @()
    if ($null -ne $InputObject) {
        $named = @('Sddl', 'nTSecurityDescriptor' | Where-Object { $InputObject.PSObject.Properties[$_] })
    }
    if ($named.Count -eq 1) {
        $value = $InputObject.PSObject.Properties[$named[0]].Value
        if ($value -is [string] -or $value -is [byte[]] -or $value -is [System.Security.AccessControl.ObjectSecurity]) {
            return ConvertTo-SdtoolDescriptor -InputObject $value -DomainSid $DomainSid
        }
    }
    throw [System.ArgumentException]::new('The input is no text, no bytes, and no object with one descriptor.')
}

# An access mask: rights of SDDL such as FR, a number, or an enum such as FileSystemRights. PowerShell reads 0x80000000
# as a negative number.
function ConvertTo-SdtoolMask {
    [CmdletBinding()]
    [OutputType([uint32])]
    param(
        [Parameter(Mandatory = $true)]
        [object] $Right
    )
    if ($Right -is [string]) {
        return [Sdtool.Sddl]::ParseRights($Right)
    }
    $number = [long] $Right
    if ($number -lt [int]::MinValue -or $number -gt [uint32]::MaxValue) {
        throw [System.ArgumentOutOfRangeException]::new('Right')
    }
    return [uint32] ($number -band [long] [uint32]::MaxValue)
}

# Who asks, and for what. The dictionary is what the caller, a command, was called with.
function Get-SdtoolChecker {
    [CmdletBinding()]
    [OutputType('Sdtool.Checker')]
    param(
        [Parameter(Mandatory = $true)]
        [System.Collections.Generic.Dictionary[string, object]] $Given,

        [AllowNull()]
        [Sdtool.Sid] $DomainSid,

        [Parameter(Mandatory = $true)]
        [System.Management.Automation.PSCmdlet] $Caller
    )
    try {
        $mapping = [Sdtool.Mapping]::File
        if ($Given.ContainsKey('Mapping')) {
            $mapping = $Given['Mapping']
        }
        $mask = ConvertTo-SdtoolMask -Right $Given['Right']
        $principal = Get-SdtoolSid -Text $Given['PrincipalSelf'] -DomainSid $DomainSid
        $token = Get-SdtoolToken -Given $Given -DomainSid $DomainSid
        return [Sdtool.Checker]::new($token, $mask, $false, $mapping, $Given['ObjectType'], $principal)
    }
    catch {
        $Caller.ThrowTerminatingError((ConvertTo-SdtoolErrorRecord -ErrorRecord $_))
    }
}

function Get-SdtoolToken {
    [CmdletBinding()]
    [OutputType('Sdtool.Token')]
    param(
        [Parameter(Mandatory = $true)]
        [System.Collections.Generic.Dictionary[string, object]] $Given,

        [AllowNull()]
        [Sdtool.Sid] $DomainSid
    )
    if ($Given.ContainsKey('Token')) {
        return $Given['Token']
    }
    $sids = [System.Collections.Generic.List[Sdtool.Sid]]::new()
    foreach ($text in $Given['Sid']) {
        $sids.Add([Sdtool.Sid]::new([string] $text, $DomainSid))
    }
    $denyOnly = [System.Collections.Generic.List[Sdtool.Sid]]::new()
    if ($Given.ContainsKey('DenyOnlySid')) {
        foreach ($text in $Given['DenyOnlySid']) {
            $denyOnly.Add([Sdtool.Sid]::new([string] $text, $DomainSid))
        }
    }
    $privileges = [Sdtool.Privileges]::None
    if ($Given.ContainsKey('Privilege')) {
        $privileges = $Given['Privilege']
    }
    return [Sdtool.Token]::new($sids, $denyOnly, $Given['Level'], $privileges)
}

# The SID of a text, or null without one.
function Get-SdtoolSid {
    [CmdletBinding()]
    [OutputType('Sdtool.Sid')]
    param(
        [AllowNull()]
        [AllowEmptyString()]
        [string] $Text,

        [AllowNull()]
        [Sdtool.Sid] $DomainSid
    )
    if ($Text) {
        return [Sdtool.Sid]::new($Text, $DomainSid)
    }
}

# The same of a command's domain.
function Get-SdtoolDomain {
    [CmdletBinding()]
    [OutputType('Sdtool.Sid')]
    param(
        [AllowNull()]
        [AllowEmptyString()]
        [string] $Domain,

        [Parameter(Mandatory = $true)]
        [System.Management.Automation.PSCmdlet] $Caller
    )
    try {
        return Get-SdtoolSid -Text $Domain
    }
    catch {
        $Caller.ThrowTerminatingError((ConvertTo-SdtoolErrorRecord -ErrorRecord $_ -Target $Domain))
    }
}

# The record of an error, with the exception of the assembly that is within those of PowerShell.
function ConvertTo-SdtoolErrorRecord {
    [CmdletBinding()]
    [OutputType([System.Management.Automation.ErrorRecord])]
    param(
        [Parameter(Mandatory = $true)]
        [System.Management.Automation.ErrorRecord] $ErrorRecord,

        [AllowNull()]
        [object] $Target
    )
    $exception = $ErrorRecord.Exception.GetBaseException()
    $category = [System.Management.Automation.ErrorCategory]::InvalidArgument
    if ($exception -is [Sdtool.FaultException]) {
        $category = [System.Management.Automation.ErrorCategory]::InvalidData
    }
    elseif ($exception -is [Sdtool.LibraryException]) {
        $category = [System.Management.Automation.ErrorCategory]::ResourceUnavailable
    }
    return [System.Management.Automation.ErrorRecord]::new($exception, $exception.GetType().Name, $category, $Target)
}

function ConvertFrom-Sddl {
    <#
    .SYNOPSIS
    Gives the security descriptor of a text of SDDL, of bytes, or of an object of Get-Acl.
    .PARAMETER InputObject
    The text, the bytes, the object of Get-Acl, or one whose property Sddl or nTSecurityDescriptor is one of these.
    Bytes in a pipeline need a comma in front: , $bytes.
    .PARAMETER Domain
    The SID whose aliases, such as DA, are read.
    .EXAMPLE
    'O:BAD:(A;;FR;;;BU)' | ConvertFrom-Sddl
    .EXAMPLE
    (Get-Acl C:\Windows | ConvertFrom-Sddl).DiscretionaryAcl
    #>
    [CmdletBinding()]
    [OutputType('Sdtool.SecurityDescriptor')]
    param(
        [Parameter(Mandatory = $true, Position = 0, ValueFromPipeline = $true)]
        [AllowNull()]
        [AllowEmptyString()]
        [AllowEmptyCollection()]
        [object] $InputObject,

        [string] $Domain
    )
    begin {
        $domainSid = Get-SdtoolDomain -Domain $Domain -Caller $PSCmdlet
    }
    process {
        try {
            ConvertTo-SdtoolDescriptor -InputObject $InputObject -DomainSid $domainSid
        }
        catch {
            $PSCmdlet.WriteError((ConvertTo-SdtoolErrorRecord -ErrorRecord $_ -Target $InputObject))
        }
    }
}

function ConvertTo-Sddl {
    <#
    .SYNOPSIS
    Gives the SDDL of a security descriptor.
    .PARAMETER InputObject
    A descriptor: what ConvertFrom-Sddl takes or gives, or Edit-Sddl gives.
    .PARAMETER Domain
    The SID whose aliases, such as DA, are printed.
    .PARAMETER Numeric
    Prints no aliases.
    .EXAMPLE
    Get-Acl C:\Windows | ConvertTo-Sddl -Numeric
    #>
    [CmdletBinding()]
    [OutputType([string])]
    param(
        [Parameter(Mandatory = $true, Position = 0, ValueFromPipeline = $true)]
        [AllowNull()]
        [AllowEmptyString()]
        [AllowEmptyCollection()]
        [object] $InputObject,

        [string] $Domain,

        [switch] $Numeric
    )
    begin {
        $domainSid = Get-SdtoolDomain -Domain $Domain -Caller $PSCmdlet
    }
    process {
        try {
            $descriptor = ConvertTo-SdtoolDescriptor -InputObject $InputObject -DomainSid $domainSid
            $descriptor.GetSddlForm($domainSid, $Numeric.IsPresent)
        }
        catch {
            $PSCmdlet.WriteError((ConvertTo-SdtoolErrorRecord -ErrorRecord $_ -Target $InputObject))
        }
    }
}

function Test-SddlAccess {
    <#
    .SYNOPSIS
    Says whether a security descriptor grants rights to a token: $true or $false alone.
    .DESCRIPTION
    It takes one descriptor, since PowerShell takes every list of several answers for true. None, or one that can't be
    read, is an error that ends the command, so no branch of an if is taken.
    .PARAMETER InputObject
    A descriptor: what ConvertFrom-Sddl takes or gives, or Edit-Sddl gives.
    .PARAMETER Right
    What is wanted: rights of SDDL such as FR, a number, or values of an enum such as FileSystemRights.
    .PARAMETER Sid
    The SIDs of who asks, with those of all groups: S-1- and numbers, or aliases such as BU.
    .PARAMETER DenyOnlySid
    SIDs that count only where an ACE denies.
    .PARAMETER Level
    The integrity level, such as 8192 for medium. Without it no label is looked at.
    .PARAMETER Privilege
    Security, TakeOwnership, or both.
    .PARAMETER Token
    A token of [Sdtool.Token], in the place of SIDs, level and privileges.
    .PARAMETER Mapping
    The kind of object: File, Key or DirectoryService.
    .PARAMETER ObjectType
    The GUID of an object type, of a check in a directory.
    .PARAMETER PrincipalSelf
    The SID that PRINCIPAL SELF stands for.
    .PARAMETER Domain
    The SID whose aliases, such as DA, are read.
    .EXAMPLE
    Test-SddlAccess 'O:BAD:(A;;FR;;;BU)' -Right FR -Sid BU, WD, AU
    .EXAMPLE
    Get-Acl C:\Windows | Test-SddlAccess -Right ([System.Security.AccessControl.FileSystemRights]::Write) -Sid BU, WD
    #>
    [CmdletBinding(DefaultParameterSetName = 'Sid')]
    [OutputType([bool])]
    param(
        [Parameter(Mandatory = $true, Position = 0, ValueFromPipeline = $true)]
        [AllowNull()]
        [AllowEmptyString()]
        [AllowEmptyCollection()]
        [object] $InputObject,

        [Parameter(Mandatory = $true)]
        [object] $Right,

        [Parameter(Mandatory = $true, ParameterSetName = 'Sid')]
        [string[]] $Sid,

        [Parameter(ParameterSetName = 'Sid')]
        [string[]] $DenyOnlySid,

        [Parameter(ParameterSetName = 'Sid')]
        [System.Nullable[uint32]] $Level,

        [Parameter(ParameterSetName = 'Sid')]
        [Sdtool.Privileges] $Privilege,

        [Parameter(Mandatory = $true, ParameterSetName = 'Token')]
        [Sdtool.Token] $Token,

        [Sdtool.Mapping] $Mapping,

        [System.Nullable[guid]] $ObjectType,

        [string] $PrincipalSelf,

        [string] $Domain
    )
    begin {
        $answers = [System.Collections.Generic.List[bool]]::new()
        $domainSid = Get-SdtoolDomain -Domain $Domain -Caller $PSCmdlet
        $checker = Get-SdtoolChecker -Given $PSBoundParameters -DomainSid $domainSid -Caller $PSCmdlet
    }
    process {
        try {
            if ($answers.Count -gt 0) {
                throw [System.ArgumentException]::new('It takes one descriptor; Get-SddlAccess takes many.')
            }
            $descriptor = ConvertTo-SdtoolDescriptor -InputObject $InputObject -DomainSid $domainSid
            $answers.Add($checker.Check([Sdtool.SecurityDescriptor] $descriptor).IsGranted)
        }
        catch {
            $PSCmdlet.ThrowTerminatingError((ConvertTo-SdtoolErrorRecord -ErrorRecord $_ -Target $InputObject))
        }
    }
    end {
        try {
            if ($answers.Count -eq 0) {
                throw [System.ArgumentException]::new('It takes one descriptor, and none came.')
            }
            $answers[0]
        }
        catch {
            $PSCmdlet.ThrowTerminatingError((ConvertTo-SdtoolErrorRecord -ErrorRecord $_))
        }
    }
}

function Get-SddlAccess {
    <#
    .SYNOPSIS
    Says of each security descriptor what it grants to a token, and why.
    .DESCRIPTION
    Each answer has IsGranted and Mask, as Verdict of the assembly has them, and in Reasons why each of the rights 0 to
    24 is granted or denied, by its place in a mask. A descriptor that can't be read is an error, and has no answer.
    Every answer is an object, and so true: ask IsGranted, or use Test-SddlAccess.
    .PARAMETER InputObject
    A descriptor: what ConvertFrom-Sddl takes or gives, or Edit-Sddl gives.
    .PARAMETER Right
    What is wanted: rights of SDDL such as FR, a number, or values of an enum such as FileSystemRights.
    .PARAMETER Sid
    The SIDs of who asks, with those of all groups: S-1- and numbers, or aliases such as BU.
    .PARAMETER DenyOnlySid
    SIDs that count only where an ACE denies.
    .PARAMETER Level
    The integrity level, such as 8192 for medium. Without it no label is looked at.
    .PARAMETER Privilege
    Security, TakeOwnership, or both.
    .PARAMETER Token
    A token of [Sdtool.Token], in the place of SIDs, level and privileges.
    .PARAMETER Mapping
    The kind of object: File, Key or DirectoryService.
    .PARAMETER ObjectType
    The GUID of an object type, of a check in a directory.
    .PARAMETER PrincipalSelf
    The SID that PRINCIPAL SELF stands for.
    .PARAMETER Domain
    The SID whose aliases, such as DA, are read.
    .EXAMPLE
    Get-ChildItem C:\Shares | Get-Acl | Get-SddlAccess -Right FW -Sid BU, WD, AU | Where-Object IsGranted
    #>
    [CmdletBinding(DefaultParameterSetName = 'Sid')]
    [OutputType('Sdtool.SddlAccess')]
    param(
        [Parameter(Mandatory = $true, Position = 0, ValueFromPipeline = $true)]
        [AllowNull()]
        [AllowEmptyString()]
        [AllowEmptyCollection()]
        [object] $InputObject,

        [Parameter(Mandatory = $true)]
        [object] $Right,

        [Parameter(Mandatory = $true, ParameterSetName = 'Sid')]
        [string[]] $Sid,

        [Parameter(ParameterSetName = 'Sid')]
        [string[]] $DenyOnlySid,

        [Parameter(ParameterSetName = 'Sid')]
        [System.Nullable[uint32]] $Level,

        [Parameter(ParameterSetName = 'Sid')]
        [Sdtool.Privileges] $Privilege,

        [Parameter(Mandatory = $true, ParameterSetName = 'Token')]
        [Sdtool.Token] $Token,

        [Sdtool.Mapping] $Mapping,

        [System.Nullable[guid]] $ObjectType,

        [string] $PrincipalSelf,

        [string] $Domain
    )
    begin {
        $domainSid = Get-SdtoolDomain -Domain $Domain -Caller $PSCmdlet
        $checker = Get-SdtoolChecker -Given $PSBoundParameters -DomainSid $domainSid -Caller $PSCmdlet
    }
    process {
        try {
            $descriptor = ConvertTo-SdtoolDescriptor -InputObject $InputObject -DomainSid $domainSid
            $verdict = $checker.Check([Sdtool.SecurityDescriptor] $descriptor)
            [pscustomobject] @{
                PSTypeName  = 'Sdtool.SddlAccess'
                IsGranted   = $verdict.IsGranted
                Mask        = $verdict.Mask
                Reasons     = $checker.GetReasons($descriptor)
                InputObject = $InputObject
            }
        }
        catch {
            $PSCmdlet.WriteError((ConvertTo-SdtoolErrorRecord -ErrorRecord $_ -Target $InputObject))
        }
    }
}

function Edit-Sddl {
    <#
    .SYNOPSIS
    Gives a security descriptor after changes, which are made one after the other. No object of the system is changed.
    .PARAMETER InputObject
    A descriptor: what ConvertFrom-Sddl takes or gives, or Edit-Sddl gives.
    .PARAMETER Change
    Changes of [Sdtool.Change].
    .PARAMETER Domain
    The SID whose aliases, such as DA, are read.
    .EXAMPLE
    $deny = [Sdtool.Change]::PutByOrder('DiscretionaryAcl', [Sdtool.Ace]::Parse('(D;;FW;;;BU)'))
    Get-Acl C:\Shares\plan.txt | Edit-Sddl -Change $deny | ConvertTo-Sddl
    .OUTPUTS
    Sdtool.Edited: the Descriptor, and in Touched how many ACEs each change put, took or set.
    #>
    [CmdletBinding()]
    [OutputType('Sdtool.Edited')]
    param(
        [Parameter(Mandatory = $true, Position = 0, ValueFromPipeline = $true)]
        [AllowNull()]
        [AllowEmptyString()]
        [AllowEmptyCollection()]
        [object] $InputObject,

        [Parameter(Mandatory = $true, Position = 1)]
        [AllowEmptyCollection()]
        [Sdtool.Change[]] $Change,

        [string] $Domain
    )
    begin {
        $domainSid = Get-SdtoolDomain -Domain $Domain -Caller $PSCmdlet
    }
    process {
        try {
            $descriptor = ConvertTo-SdtoolDescriptor -InputObject $InputObject -DomainSid $domainSid
            $descriptor.Edit($Change)
        }
        catch {
            $PSCmdlet.WriteError((ConvertTo-SdtoolErrorRecord -ErrorRecord $_ -Target $InputObject))
        }
    }
}

Export-ModuleMember -Function ConvertFrom-Sddl, ConvertTo-Sddl, Test-SddlAccess, Get-SddlAccess, Edit-Sddl
