@{
    RootModule             = 'Sdtool.psm1'
    ModuleVersion          = '0.1.0'
    GUID                   = '2f0c1d52-5c1b-4f0e-9c55-6d7a6a1f5b43'
    Author                 = 'Zaptirony maintainers'
    CompanyName            = 'Zaptirony'
    Copyright              = 'Apache-2.0'
    Description            = 'Windows security descriptors and SDDL, on every system: texts, access checks and changes.'
    PowerShellVersion      = '5.1'
    CompatiblePSEditions   = @('Desktop', 'Core')
    DotNetFrameworkVersion = '4.6.1'
    RequiredAssemblies     = @('Sdtool.dll')
    FormatsToProcess       = @('Sdtool.Format.ps1xml')
    FunctionsToExport      = @('ConvertFrom-Sddl', 'ConvertTo-Sddl', 'Test-SddlAccess', 'Get-SddlAccess', 'Edit-Sddl')
    CmdletsToExport        = @()
    VariablesToExport      = @()
    AliasesToExport        = @()
    PrivateData            = @{
        PSData = @{
            Tags       = @('SDDL', 'ACL', 'SecurityDescriptor', 'Permissions', 'PSEdition_Desktop', 'PSEdition_Core')
            LicenseUri = 'https://www.apache.org/licenses/LICENSE-2.0'
            ProjectUri = 'https://zaptirony.example/sdtool'
        }
    }
}
