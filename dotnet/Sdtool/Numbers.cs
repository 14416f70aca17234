using System;

namespace Sdtool
{
    /// <summary>A part of a descriptor.</summary>
    public enum Part
    {
        None = (int)Native.SDTOOL_NO_PART,
        Owner = (int)Native.SDTOOL_OWNER,
        Group = (int)Native.SDTOOL_GROUP,
        SystemAcl = (int)Native.SDTOOL_SACL,
        DiscretionaryAcl = (int)Native.SDTOOL_DACL
    }

    /// <summary>A field of an ACE or of a part.</summary>
    public enum Field
    {
        None = (int)Native.SDTOOL_NO_FIELD,
        AceType = (int)Native.SDTOOL_FIELD_KIND,
        Flags = (int)Native.SDTOOL_FIELD_FLAGS,
        Rights = (int)Native.SDTOOL_FIELD_RIGHTS,
        ObjectType = (int)Native.SDTOOL_FIELD_OBJECT_TYPE,
        InheritedObjectType = (int)Native.SDTOOL_FIELD_INHERITED_OBJECT_TYPE,
        Sid = (int)Native.SDTOOL_FIELD_SID,
        Size = (int)Native.SDTOOL_FIELD_SIZE
    }

    /// <summary>What an ACL is. Absent and null DACLs grant everything, an empty list nothing.</summary>
    public enum AclState
    {
        Absent = (int)Native.SDTOOL_ACL_ABSENT,
        Null = (int)Native.SDTOOL_ACL_NULL,
        List = (int)Native.SDTOOL_ACL_LIST
    }

    /// <summary>The types of ACEs that descriptors may have (MS-DTYP 2.4.4.1).</summary>
    public enum AceType : byte
    {
        AccessAllowed = 0,
        AccessDenied = 1,
        SystemAudit = 2,
        AccessAllowedObject = 5,
        AccessDeniedObject = 6,
        SystemAuditObject = 7,
        SystemMandatoryLabel = 0x11
    }

    /// <summary>The flags of an ACE (MS-DTYP 2.4.4.1).</summary>
    [Flags]
    public enum AceFlags : byte
    {
        None = 0,
        ObjectInherit = 0x01,
        ContainerInherit = 0x02,
        NoPropagateInherit = 0x04,
        InheritOnly = 0x08,
        Inherited = 0x10,
        SuccessfulAccess = 0x40,
        FailedAccess = 0x80
    }

    /// <summary>The control bits of a descriptor (MS-DTYP 2.4.6).</summary>
    [Flags]
    public enum ControlFlags
    {
        None = 0,
        OwnerDefaulted = 0x0001,
        GroupDefaulted = 0x0002,
        DiscretionaryAclPresent = 0x0004,
        DiscretionaryAclDefaulted = 0x0008,
        SystemAclPresent = 0x0010,
        SystemAclDefaulted = 0x0020,
        DiscretionaryAclUntrusted = 0x0040,
        ServerSecurity = 0x0080,
        DiscretionaryAclAutoInheritRequired = 0x0100,
        SystemAclAutoInheritRequired = 0x0200,
        DiscretionaryAclAutoInherited = 0x0400,
        SystemAclAutoInherited = 0x0800,
        DiscretionaryAclProtected = 0x1000,
        SystemAclProtected = 0x2000,
        RMControlValid = 0x4000,
        SelfRelative = 0x8000
    }

    /// <summary>The kind of object whose rights the generic rights stand for.</summary>
    public enum Mapping
    {
        File = (int)Native.SDTOOL_MAPPING_FILE,
        Key = (int)Native.SDTOOL_MAPPING_KEY,
        DirectoryService = (int)Native.SDTOOL_MAPPING_DS
    }

    /// <summary>What is made in a folder.</summary>
    public enum ObjectKind
    {
        File = (int)Native.SDTOOL_KIND_FILE,
        Container = (int)Native.SDTOOL_KIND_CONTAINER
    }

    /// <summary>The privileges that a check looks at, SeSecurityPrivilege and SeTakeOwnershipPrivilege.</summary>
    [Flags]
    public enum Privileges
    {
        None = 0,
        Security = (int)Native.SDTOOL_SECURITY,
        TakeOwnership = (int)Native.SDTOOL_TAKE_OWNERSHIP
    }

    /// <summary>Why a right is granted or denied. A number without a name is a denial.</summary>
    public enum ReasonKind
    {
        /// <summary>Denied: nothing grants it.</summary>
        Nothing = (int)Native.SDTOOL_REASON_NOTHING,
        /// <summary>Denied by the mandatory label; without a place it is the default label.</summary>
        Label = (int)Native.SDTOOL_REASON_LABEL,
        /// <summary>Granted: the DACL is null or absent.</summary>
        NoDiscretionaryAcl = (int)Native.SDTOOL_REASON_NO_DACL,
        /// <summary>Granted to the owner.</summary>
        Owner = (int)Native.SDTOOL_REASON_OWNER,
        /// <summary>Granted by a privilege.</summary>
        Privilege = (int)Native.SDTOOL_REASON_PRIVILEGE,
        /// <summary>Granted by an ACE.</summary>
        Granted = (int)Native.SDTOOL_REASON_GRANTED,
        /// <summary>Denied by an ACE.</summary>
        Denied = (int)Native.SDTOOL_REASON_DENIED
    }

    /// <summary>How a run of the program ends.</summary>
    public enum Status
    {
        Answered = (int)Native.SDTOOL_STATUS_ANSWERED,
        Errors = (int)Native.SDTOOL_STATUS_ERRORS,
        Usage = (int)Native.SDTOOL_STATUS_USAGE
    }
}
