using System;
using System.Collections;
using System.Collections.Generic;

namespace Sdtool
{
    /// <summary>
    /// An ACL: a list of ACEs, or <see cref="Null"/> or <see cref="Absent"/>. A descriptor whose DACL is one of these
    /// two grants everything, and one whose DACL is an empty list grants nothing. So these two have no ACEs to count:
    /// ask <see cref="IsList"/> first.
    /// </summary>
    public sealed class Acl : IReadOnlyList<Ace>, IEquatable<Acl>
    {
        public static readonly Acl Absent = new Acl(AclState.Absent);
        public static readonly Acl Null = new Acl(AclState.Null);
        private readonly byte[] data; // of those ACEs that nobody has asked for
        private volatile Ace[] aces;

        public Acl(params Ace[] aces) : this((IEnumerable<Ace>)aces)
        {
        }

        public Acl(IEnumerable<Ace> aces) : this(AclState.List)
        {
            this.aces = new List<Ace>(aces).ToArray();
            if (Array.IndexOf(this.aces, null) >= 0)
            {
                throw new ArgumentNullException(nameof(aces));
            }
        }

        private Acl(AclState state)
        {
            State = state;
        }

        private Acl(byte[] data) : this(AclState.List)
        {
            this.data = data;
        }

        public AclState State { get; }

        public bool IsList
        {
            get { return State == AclState.List; }
        }

        public bool IsNull
        {
            get { return State == AclState.Null; }
        }

        public bool IsAbsent
        {
            get { return State == AclState.Absent; }
        }

        /// <exception cref="NoAcesException">The ACL is null or absent.</exception>
        public int Count
        {
            get { return Aces.Length; }
        }

        internal Ace[] Aces
        {
            get
            {
                if (!IsList)
                {
                    throw new NoAcesException(State);
                }
                return aces ?? (aces = Read(data));
            }
        }

        /// <exception cref="NoAcesException">The ACL is null or absent.</exception>
        public Ace this[int index]
        {
            get { return Aces[index]; }
        }

        public static bool operator ==(Acl left, Acl right)
        {
            return Equals(left, right);
        }

        public static bool operator !=(Acl left, Acl right)
        {
            return !Equals(left, right);
        }

        /// <exception cref="NoAcesException">The ACL is null or absent.</exception>
        public IEnumerator<Ace> GetEnumerator()
        {
            return ((IEnumerable<Ace>)Aces).GetEnumerator();
        }

        IEnumerator IEnumerable.GetEnumerator()
        {
            return GetEnumerator();
        }

        public bool Equals(Acl other)
        {
            if (ReferenceEquals(other, null) || State != other.State)
            {
                return false;
            }
            return !IsList || AreSame(Aces, other.Aces);
        }

        public override bool Equals(object obj)
        {
            return Equals(obj as Acl);
        }

        public override int GetHashCode()
        {
            int hash = (int)State;
            foreach (Ace ace in IsList ? Aces : new Ace[0])
            {
                hash = unchecked(hash * 31 + ace.GetHashCode());
            }
            return hash;
        }

        public override string ToString()
        {
            return IsList ? string.Concat((IEnumerable<Ace>)Aces) : State.ToString();
        }

        /// <summary>The ACL that a call has found in the bytes of a descriptor.</summary>
        internal static Acl At(byte[] bytes, Native.AclPlace found)
        {
            switch (found.state)
            {
                case Native.SDTOOL_ACL_ABSENT:
                    return Absent;
                case Native.SDTOOL_ACL_NULL:
                    return Null;
                default:
                    return new Acl(Answer.Part(bytes, found.place));
            }
        }

        private static bool AreSame(Ace[] one, Ace[] other)
        {
            if (one.Length != other.Length)
            {
                return false;
            }
            for (int at = 0; at < one.Length; at++)
            {
                if (!one[at].Equals(other[at]))
                {
                    return false;
                }
            }
            return true;
        }

        private static unsafe Ace[] Read(byte[] data)
        {
            var found = new List<Ace>();
            var ace = default(Native.Ace);
            fixed (byte* bytes = data)
            {
                while (Loader.Calls.NextAce(bytes, Answer.Size(data), &ace) != 0)
                {
                    found.Add(new Ace(ace, data));
                }
            }
            if (ace.fault != Native.SDTOOL_OK)
            {
                throw Given.Nothing.Refused(new Native.Outcome { fault = ace.fault });
            }
            return found.ToArray();
        }
    }
}
