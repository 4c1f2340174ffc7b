using System;
using System.Runtime.InteropServices;

namespace Odfilter
{
    /// <summary>Bytes that a call borrows, or a buffer.</summary>
    [StructLayout(LayoutKind.Sequential)]
    internal unsafe struct Bytes
    {
        public byte* At;
        public UIntPtr Length;

        public Bytes(byte* at, int length)
        {
            At = at;
            Length = (UIntPtr)length;
        }
    }

    /// <summary>A handle of the library. It is freed once no call uses it, by Dispose or when it is
    /// collected.</summary>
    internal sealed class Handle : SafeHandle
    {
        private Handle under;

        public Handle() : base(IntPtr.Zero, true)
        {
        }

        public override bool IsInvalid
        {
            get { return handle == IntPtr.Zero; }
        }

        /// <summary>The filter that a judge reads, which lives as long as the judge.</summary>
        internal Handle Under
        {
            get { return under; }
            set
            {
                var isAdded = false;
                value.DangerousAddRef(ref isAdded);
                under = value;
            }
        }

        protected override bool ReleaseHandle()
        {
            var isFreed = Native.odfilter_free(ref handle) == Status.Ok;
            if (under != null)
            {
                under.DangerousRelease();
            }
            return isFreed;
        }
    }

    /// <summary>What a schema, a type, a filter and a judge have in common: a handle, until they are disposed
    /// of.</summary>
    public abstract class Held : IDisposable
    {
        private readonly Handle handle;
        private volatile bool isDisposed;

        internal Held(Handle made)
        {
            handle = made;
        }

        internal Handle Open
        {
            get
            {
                if (isDisposed)
                {
                    throw new ObjectDisposedException(GetType().Name);
                }
                return handle;
            }
        }

        /// <summary>Frees what is held, once no call uses it. A second time does nothing.</summary>
        public void Dispose()
        {
            if (!isDisposed)
            {
                isDisposed = true;
                handle.Dispose();
            }
        }
    }
}
