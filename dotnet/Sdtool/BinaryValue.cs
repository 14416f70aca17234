using System;

namespace Sdtool
{
    /// <summary>A value that has a binary form. Two are equal exactly if these are the same.</summary>
    public abstract class BinaryValue<T> : IEquatable<T> where T : BinaryValue<T>
    {
        internal readonly byte[] Data;

        internal BinaryValue(byte[] data)
        {
            Data = data;
        }

        public int BinaryLength
        {
            get { return Data.Length; }
        }

        public static bool operator ==(BinaryValue<T> left, BinaryValue<T> right)
        {
            return Equals(left, right);
        }

        public static bool operator !=(BinaryValue<T> left, BinaryValue<T> right)
        {
            return !Equals(left, right);
        }

        public byte[] GetBinaryForm()
        {
            return (byte[])Data.Clone();
        }

        public void GetBinaryForm(byte[] binaryForm, int offset)
        {
            Data.CopyTo(binaryForm, offset);
        }

        public bool Equals(T other)
        {
            return !ReferenceEquals(other, null) && AreSame(Data, other.Data);
        }

        public sealed override bool Equals(object obj)
        {
            return Equals(obj as T);
        }

        public sealed override int GetHashCode()
        {
            uint hash = 2166136261; // FNV-1a
            foreach (byte one in Data)
            {
                hash = unchecked((hash ^ one) * 16777619);
            }
            return unchecked((int)hash);
        }

        private static bool AreSame(byte[] one, byte[] other)
        {
            if (one.Length != other.Length)
            {
                return false;
            }
            for (int at = 0; at < one.Length; at++)
            {
                if (one[at] != other[at])
                {
                    return false;
                }
            }
            return true;
        }
    }
}
