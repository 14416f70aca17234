using System;
using System.Runtime.InteropServices;

namespace Sdtool
{
    /// <summary>Memory that nothing moves, for structs with pointers.</summary>
    internal sealed unsafe class Block : IDisposable
    {
        private const int MostOfAce = (int)Native.SDTOOL_MOST_SID + 2 * 16;
        private readonly IntPtr memory;
        private byte* free;

        internal Block(long size)
        {
            memory = Marshal.AllocHGlobal((IntPtr)size);
            free = (byte*)memory;
        }

        public void Dispose()
        {
            Marshal.FreeHGlobal(memory);
        }

        /// <summary>A copy of some bytes, or none.</summary>
        internal Native.Bytes Copy(byte[] data)
        {
            if (data == null)
            {
                return default(Native.Bytes);
            }
            var copy = new Native.Bytes { bytes = free, size = (ulong)data.Length };
            Marshal.Copy(data, 0, (IntPtr)free, data.Length);
            free += data.Length;
            return copy;
        }

        /// <summary>The layout of a descriptor of these parts.</summary>
        internal static byte[] Build(ControlFlags control, byte resourceManager, Sid owner, Sid group, Acl sacl,
                                     Acl dacl)
        {
            if (sacl == null || dacl == null)
            {
                throw new ArgumentNullException(sacl == null ? "systemAcl" : "discretionaryAcl");
            }
            int aces = (sacl.IsList ? sacl.Count : 0) + (dacl.IsList ? dacl.Count : 0);
            using (var block = new Block(2 * Native.SDTOOL_MOST_SID + (long)aces * MostOfAce))
            {
                var parts = new Native.NewDescriptor
                {
                    owner = block.Copy(Sid.DataOf(owner)),
                    group = block.Copy(Sid.DataOf(group)),
                    sacl = new Native.NewAcl { state = (uint)sacl.State },
                    dacl = new Native.NewAcl { state = (uint)dacl.State },
                    control = Word(control, "flags"),
                    resourceManager = resourceManager
                };
                return Laid(parts, block.Copy(sacl), block.Copy(dacl));
            }
        }

        /// <summary>A control word, which has 16 bits.</summary>
        internal static ushort Word(ControlFlags flags, string name)
        {
            if ((uint)flags > ushort.MaxValue)
            {
                throw new ArgumentOutOfRangeException(name);
            }
            return (ushort)flags;
        }

        /// <summary>The bytes of an ACE of these fields.</summary>
        internal static byte[] AceOf(AceType type, AceFlags flags, uint mask, Sid sid, Guid? objectType,
                                     Guid? inheritedObjectType)
        {
            if (ReferenceEquals(sid, null))
            {
                throw new ArgumentNullException(nameof(sid));
            }
            using (var block = new Block(MostOfAce))
            {
                var parts = new Native.NewDescriptor { dacl = new Native.NewAcl { state = Native.SDTOOL_ACL_LIST } };
                Native.NewAce ace = block.Copy(type, flags, mask, sid, objectType, inheritedObjectType);
                try
                {
                    return FirstOf(Laid(parts, new Native.NewAce[0], new[] { ace }));
                }
                catch (ArgumentFaultException fault)
                {
                    const string Problem = "no ACE has this type, these flags and these object types together";
                    throw new ArgumentFaultException(fault.Outcome, Problem, nameof(type));
                }
            }
        }

        private static byte[] Laid(Native.NewDescriptor parts, Native.NewAce[] sacl, Native.NewAce[] dacl)
        {
            return Answer.Bytes((output, size) =>
            {
                Native.NewDescriptor given = parts;
                fixed (Native.NewAce* systemAces = sacl, discretionaryAces = dacl)
                {
                    given.sacl.aces = systemAces;
                    given.sacl.aceCount = (ulong)sacl.Length;
                    given.dacl.aces = discretionaryAces;
                    given.dacl.aceCount = (ulong)dacl.Length;
                    return Loader.Calls.Build(&given, output, size);
                }
            }, Given.Nothing);
        }

        /// <summary>The first ACE of the DACL of a layout.</summary>
        private static byte[] FirstOf(byte[] layout)
        {
            fixed (byte* bytes = layout)
            {
                Native.Place acl = Loader.Calls.Parts(bytes, Answer.Size(layout)).dacl.place;
                var ace = default(Native.Ace);
                Loader.Calls.NextAce(bytes + acl.offset, acl.size, &ace);
                ace.place.offset += acl.offset;
                return Answer.Part(layout, ace.place);
            }
        }

        private Native.NewAce[] Copy(Acl acl)
        {
            return acl.IsList ? Array.ConvertAll(acl.Aces, Copy) : new Native.NewAce[0];
        }

        private Native.NewAce Copy(Ace ace)
        {
            return Copy(ace.AceType, ace.AceFlags, ace.AccessMask, ace.SecurityIdentifier, ace.ObjectAceType,
                        ace.InheritedObjectAceType);
        }

        private Native.NewAce Copy(AceType type, AceFlags flags, uint mask, Sid sid, Guid? objectType,
                                   Guid? inheritedObjectType)
        {
            return new Native.NewAce
            {
                sid = Copy(sid.Data),
                objectType = Copy(Ace.DataOf(objectType)),
                inheritedObjectType = Copy(Ace.DataOf(inheritedObjectType)),
                mask = mask,
                kind = (byte)type,
                flags = (byte)flags
            };
        }
    }
}
