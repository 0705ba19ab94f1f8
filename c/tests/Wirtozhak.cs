// Classes in the shape of System.Transactions, over the shared library that wirtozhak.h describes.
using System;
using System.Collections.Generic;
using System.Diagnostics;
using System.IO;
using System.Runtime.InteropServices;
using System.Threading;

namespace Wirtozhak.Transactions
{
    public enum EnlistmentOptions { None = 0, EnlistDuringPrepareRequired = 1 }

    public enum TransactionStatus { Active = 0, Committed = 1, Aborted = 2, InDoubt = 3 }

    public enum TransactionScopeOption { Required, RequiresNew, Suppress }

    public class TransactionException : Exception
    {
        public TransactionException(string message) : base(message) { }
    }

    public class TransactionAbortedException : TransactionException
    {
        public TransactionAbortedException() : base("The transaction has aborted.") { }
    }

    public class TransactionInDoubtException : TransactionException
    {
        public TransactionInDoubtException() : base("The transaction is in doubt.") { }
    }

    public interface IEnlistmentNotification
    {
        void Prepare(PreparingEnlistment preparingEnlistment);
        void Commit(Enlistment enlistment);
        void Rollback(Enlistment enlistment);
        void InDoubt(Enlistment enlistment);
    }

    public interface ISinglePhaseNotification : IEnlistmentNotification
    {
        void SinglePhaseCommit(SinglePhaseEnlistment singlePhaseEnlistment);
    }

    // The words of the header, and its functions. A bool of C is one byte, which only the library
    // writes: a handle is a piece of memory here, and no structure that could be copied.
    static class Native
    {
        internal const int OK = 0, NOTHING = 1, DISK = 2, NO_LOG = -3;
        internal const uint INIT = 1, PREPARE = 2, PROMOTE = 3, HAND = 4, SINGLE = 5, TOLD = 6;
        internal const uint YES = 1, NO = 2, DONE = 3, ACK = 4;
        internal const uint OWN_COMMITTED = 5, OWN_ABORTED = 6, OWN_IN_DOUBT = 7;
        internal const uint ZEROS = 2, SYNC = 3;
        internal const int HANDLE_BYTES = 16;
        const string Library = "wirtozhak";

        [StructLayout(LayoutKind.Sequential)]
        internal struct Event
        {
            public uint Kind;
            public uint Enlistment;
            public uint Outcome;
        }

        [StructLayout(LayoutKind.Sequential)]
        internal struct Work
        {
            public uint Kind;
            public ulong At;
            public ulong Length;
        }

        [DllImport(Library, CallingConvention = CallingConvention.Cdecl)]
        internal static extern int wz_open(IntPtr handle, byte[] log, UIntPtr length);
        [DllImport(Library, CallingConvention = CallingConvention.Cdecl)]
        internal static extern int wz_outcome(IntPtr handle, ulong tx, uint enlistment,
                                              out uint outcome);
        [DllImport(Library, CallingConvention = CallingConvention.Cdecl)]
        internal static extern int wz_recovered(IntPtr handle, uint rm);
        [DllImport(Library, CallingConvention = CallingConvention.Cdecl)]
        internal static extern int wz_start(IntPtr handle);
        [DllImport(Library, CallingConvention = CallingConvention.Cdecl)]
        internal static extern int wz_begin(IntPtr handle, uint milliseconds, out ulong tx);
        [DllImport(Library, CallingConvention = CallingConvention.Cdecl)]
        internal static extern int wz_enlist_volatile(IntPtr handle, ulong tx, uint duringPrepare,
                                                      out uint enlistment);
        [DllImport(Library, CallingConvention = CallingConvention.Cdecl)]
        internal static extern int wz_enlist_durable(IntPtr handle, ulong tx, uint rm, uint single,
                                                     out uint enlistment);
        [DllImport(Library, CallingConvention = CallingConvention.Cdecl)]
        internal static extern int wz_identifier(IntPtr handle, ulong tx, byte[] sixteen);
        [DllImport(Library, CallingConvention = CallingConvention.Cdecl)]
        internal static extern int wz_commit(IntPtr handle, ulong tx);
        [DllImport(Library, CallingConvention = CallingConvention.Cdecl)]
        internal static extern int wz_rollback(IntPtr handle, ulong tx);
        [DllImport(Library, CallingConvention = CallingConvention.Cdecl)]
        internal static extern int wz_tick(IntPtr handle, ulong tx, uint milliseconds);
        [DllImport(Library, CallingConvention = CallingConvention.Cdecl)]
        internal static extern int wz_next(IntPtr handle, ulong tx, out Event next);
        [DllImport(Library, CallingConvention = CallingConvention.Cdecl)]
        internal static extern int wz_reply(IntPtr handle, ulong tx, uint enlistment, uint reply);
        [DllImport(Library, CallingConvention = CallingConvention.Cdecl)]
        internal static extern int wz_told(IntPtr handle, ulong tx, out uint outcome);
        [DllImport(Library, CallingConvention = CallingConvention.Cdecl)]
        internal static extern int wz_end(IntPtr handle, ulong tx);
        [DllImport(Library, CallingConvention = CallingConvention.Cdecl)]
        internal static extern int wz_disk(IntPtr handle, out Work work);
        [DllImport(Library, CallingConvention = CallingConvention.Cdecl)]
        internal static extern int wz_bytes(IntPtr handle, byte[] into, UIntPtr length);
        [DllImport(Library, CallingConvention = CallingConvention.Cdecl)]
        internal static extern int wz_close(IntPtr handle);

        internal static int Check(int code)
        {
            if (code < 0) throw new TransactionException("The library answered " + code + ".");
            return code;
        }
    }

    // The one manager of the program, over a log file. All calls are of the thread that opens it.
    public static class TransactionManager
    {
        static IntPtr handle = IntPtr.Zero;
        static FileStream file;
        static int thread;

        // The time that the disk took, for who measures the calls alone.
        internal static readonly Stopwatch AtDisk = new Stopwatch();

        // Tests for the null pointer, which the library doesn't.
        internal static IntPtr Handle
        {
            get
            {
                if (handle == IntPtr.Zero)
                    throw new InvalidOperationException("The transaction manager isn't open.");
                if (thread != Thread.CurrentThread.ManagedThreadId)
                    throw new InvalidOperationException("Another thread opened the manager.");
                return handle;
            }
        }

        // Takes up the log in the file, which stays locked. Anew: no resource manager has prepared
        // work, and only then may an empty log be begun where the file has none. After this each
        // resource manager recovers, and then comes Start.
        public static void Open(string path, bool anew)
        {
            if (path == null) throw new ArgumentNullException("path");
            if (handle != IntPtr.Zero) throw new InvalidOperationException("It is open already.");
            file = new FileStream(path, FileMode.OpenOrCreate, FileAccess.ReadWrite,
                                  FileShare.None);
            handle = ClosedHandle();
            thread = Thread.CurrentThread.ManagedThreadId;
            try
            {
                TakeUp(ReadAll(), anew);
                DoDisk();
            }
            catch
            {
                Close();
                throw;
            }
        }

        static IntPtr ClosedHandle()
        {
            IntPtr memory = Marshal.AllocHGlobal(Native.HANDLE_BYTES);
            for (int at = 0; at < Native.HANDLE_BYTES; at++) Marshal.WriteByte(memory, at, 0);
            return memory;
        }

        static byte[] ReadAll()
        {
            var memory = new MemoryStream();
            file.Seek(0, SeekOrigin.Begin);
            file.CopyTo(memory);
            return memory.ToArray();
        }

        static void TakeUp(byte[] log, bool anew)
        {
            int code = Native.NO_LOG;
            if (log.Length > 0) code = Native.wz_open(handle, log, (UIntPtr)(uint)log.Length);
            // Of one byte, since an array of none might be given as a null pointer.
            if (code == Native.NO_LOG && anew)
                code = Native.wz_open(handle, new byte[1], UIntPtr.Zero);
            Native.Check(code);
        }

        // Does in the file, in order, what the log asks of its disk. Where that fails the manager
        // is closed: to ask for the next request would say that this one is done.
        internal static void DoDisk()
        {
            AtDisk.Start();
            try
            {
                Native.Work work;
                while (Native.Check(Native.wz_disk(Handle, out work)) == Native.OK) DoWork(work);
            }
            catch (IOException)
            {
                Close();
                throw;
            }
            finally
            {
                AtDisk.Stop();
            }
        }

        static void DoWork(Native.Work work)
        {
            if (work.Kind == Native.SYNC)
            {
                file.Flush(true);
                return;
            }
            var bytes = new byte[work.Length];
            if (work.Kind != Native.ZEROS)
                Native.Check(Native.wz_bytes(Handle, bytes, (UIntPtr)work.Length));
            file.Seek((long)work.At, SeekOrigin.Begin);
            file.Write(bytes, 0, bytes.Length);
            file.Flush(); // the stream's own buffer; it is done where the system has it
        }

        // What the log says of an enlistment of an earlier life.
        public static TransactionStatus Outcome(ulong transaction, uint enlistment)
        {
            uint outcome;
            Native.Check(Native.wz_outcome(Handle, transaction, enlistment, out outcome));
            return (TransactionStatus)outcome;
        }

        // The resource manager knows all that it had prepared, and its work lasts.
        public static void RecoveryComplete(uint resourceManager)
        {
            Native.Check(Native.wz_recovered(Handle, resourceManager));
            DoDisk();
        }

        public static void Start()
        {
            Native.Check(Native.wz_start(Handle));
            DoDisk();
        }

        public static void Close()
        {
            if (handle == IntPtr.Zero) return;
            Native.wz_close(handle);
            Marshal.FreeHGlobal(handle);
            handle = IntPtr.Zero;
            file.Dispose();
        }
    }

    // What an object replies by, at once or later.
    public class Enlistment
    {
        readonly Transaction transaction;
        internal readonly uint Number;

        internal Enlistment(Transaction transaction, uint number)
        {
            this.transaction = transaction;
            Number = number;
        }

        // Only a durable one that was told that it committed has something to acknowledge.
        public virtual void Done()
        {
            transaction.Acknowledge(Number);
        }

        internal void Reply(uint word)
        {
            transaction.Reply(Number, word);
        }
    }

    public class PreparingEnlistment : Enlistment
    {
        internal PreparingEnlistment(Transaction transaction, uint number)
            : base(transaction, number) { }

        public void Prepared() { Reply(Native.YES); }
        public void ForceRollback() { Reply(Native.NO); }
        public override void Done() { Reply(Native.DONE); }
    }

    public class SinglePhaseEnlistment : Enlistment
    {
        internal SinglePhaseEnlistment(Transaction transaction, uint number)
            : base(transaction, number) { }

        public void Committed() { Reply(Native.OWN_COMMITTED); }
        public void Aborted() { Reply(Native.OWN_ABORTED); }
        public void InDoubt() { Reply(Native.OWN_IN_DOUBT); }
        public override void Done() { Committed(); }
    }

    public class Transaction
    {
        [ThreadStatic]
        static Transaction current;

        public static Transaction Current
        {
            get { return current; }
            set { current = value; }
        }

        internal readonly ulong Number;
        // An object that is enlisted.
        sealed class Enlisted
        {
            internal readonly IEnlistmentNotification Object;
            readonly bool isDurable;
            bool hasPrepared, owes; // of a durable one: it said yes; it is to acknowledge

            internal Enlisted(IEnlistmentNotification notification, bool isDurable)
            {
                Object = notification;
                this.isDurable = isDurable;
            }

            internal void SaidYes() { hasPrepared = isDurable; }

            internal void IsCommitted() { owes = hasPrepared; }

            // Whether it is to acknowledge; once.
            internal bool Acknowledges()
            {
                bool did = owes;
                owes = false;
                return did;
            }
        }

        // By number less one: the numbers of a transaction's enlistments are 1, 2, and so on.
        readonly List<Enlisted> enlisted = new List<Enlisted>();
        bool driving;

        internal Transaction(TimeSpan timeout)
        {
            var milliseconds = checked((uint)timeout.TotalMilliseconds);
            while (Native.Check(Native.wz_begin(TransactionManager.Handle, milliseconds,
                                                out Number)) == Native.DISK)
                TransactionManager.DoDisk();
        }

        public TransactionStatus Status
        {
            get
            {
                uint outcome;
                while (Native.Check(Native.wz_told(TransactionManager.Handle, Number,
                                                   out outcome)) == Native.DISK)
                    TransactionManager.DoDisk();
                return (TransactionStatus)outcome;
            }
        }

        public Enlistment EnlistVolatile(IEnlistmentNotification notification,
                                         EnlistmentOptions options)
        {
            if (notification == null) throw new ArgumentNullException("notification");
            uint number;
            Native.Check(Native.wz_enlist_volatile(TransactionManager.Handle, Number,
                                                   (uint)options, out number));
            Put(number, notification, false);
            return new Enlistment(this, number);
        }

        // A number whose enlistment was refused has no object.
        void Put(uint number, IEnlistmentNotification notification, bool isDurable)
        {
            while (enlisted.Count < (int)number) enlisted.Add(null);
            enlisted[(int)number - 1] = new Enlisted(notification, isDurable);
        }

        Enlisted At(uint number) { return enlisted[(int)number - 1]; }

        // System.Transactions has a Guid for the resource manager; here it is a number from 1, the
        // same in each life.
        public Enlistment EnlistDurable(uint resourceManager, IEnlistmentNotification notification,
                                        EnlistmentOptions options)
        {
            if (notification == null) throw new ArgumentNullException("notification");
            if (options != EnlistmentOptions.None) throw new NotSupportedException();
            uint single = notification is ISinglePhaseNotification ? 1u : 0u, number;
            Native.Check(Native.wz_enlist_durable(TransactionManager.Handle, Number,
                                                  resourceManager, single, out number));
            Put(number, notification, true);
            Drive();
            return new Enlistment(this, number);
        }

        // The identifier for other processes; it promotes the transaction.
        public Guid DistributedIdentifier
        {
            get
            {
                var bytes = new byte[16];
                IntPtr handle = TransactionManager.Handle;
                if (Native.Check(Native.wz_identifier(handle, Number, bytes)) == Native.NOTHING)
                {
                    Drive();
                    if (Native.Check(Native.wz_identifier(handle, Number, bytes)) != Native.OK)
                        throw new TransactionException("The promotion hasn't ended.");
                }
                return GuidOf(bytes);
            }
        }

        // The bytes come with the most significant first; the first three parts of a Guid don't.
        static Guid GuidOf(byte[] bytes)
        {
            Array.Reverse(bytes, 0, 4);
            Array.Reverse(bytes, 4, 2);
            Array.Reverse(bytes, 6, 2);
            return new Guid(bytes);
        }

        // So much time went by.
        public void Tick(TimeSpan time)
        {
            Native.Check(Native.wz_tick(TransactionManager.Handle, Number,
                                        checked((uint)time.TotalMilliseconds)));
            Drive();
        }

        public void Rollback()
        {
            Native.Check(Native.wz_rollback(TransactionManager.Handle, Number));
            Drive();
        }

        // Does all that is pending. A reply that comes while it goes on is part of it.
        internal void Drive()
        {
            if (driving) return;
            driving = true;
            try
            {
                Native.Event next;
                int code;
                while ((code = Native.Check(Native.wz_next(TransactionManager.Handle, Number,
                                                           out next))) != Native.NOTHING)
                {
                    if (code == Native.DISK) TransactionManager.DoDisk();
                    else if (next.Kind == Native.TOLD) Tell(next.Enlistment, next.Outcome);
                    else Ask(next.Enlistment, next.Kind);
                }
            }
            finally
            {
                driving = false;
            }
        }

        void Ask(uint number, uint kind)
        {
            if (kind == Native.PREPARE)
                At(number).Object.Prepare(new PreparingEnlistment(this, number));
            else if (kind == Native.SINGLE || kind == Native.HAND)
                ((ISinglePhaseNotification)At(number).Object).SinglePhaseCommit(
                    new SinglePhaseEnlistment(this, number));
        }

        void Tell(uint number, uint outcome)
        {
            if (number == 0) return; // the client, who asks for the status
            var enlistment = new Enlistment(this, number);
            var one = At(number);
            switch ((TransactionStatus)outcome)
            {
                case TransactionStatus.Committed:
                    one.IsCommitted();
                    one.Object.Commit(enlistment);
                    break;
                case TransactionStatus.Aborted: one.Object.Rollback(enlistment); break;
                default: one.Object.InDoubt(enlistment); break;
            }
        }

        internal void Reply(uint number, uint word)
        {
            Native.Check(Native.wz_reply(TransactionManager.Handle, Number, number, word));
            if (word == Native.YES) At(number).SaidYes();
            Drive();
        }

        internal void Acknowledge(uint number)
        {
            if (!At(number).Acknowledges()) return;
            Native.Check(Native.wz_reply(TransactionManager.Handle, Number, number, Native.ACK));
            Drive();
        }
    }

    public sealed class CommittableTransaction : Transaction, IDisposable
    {
        public CommittableTransaction() : base(TimeSpan.Zero) { }
        public CommittableTransaction(TimeSpan timeout) : base(timeout) { }

        // One that was rolled back before refuses the commit, and has aborted.
        public void Commit()
        {
            int code = Native.wz_commit(TransactionManager.Handle, Number);
            Drive();
            TransactionStatus status = Status;
            if (status == TransactionStatus.Aborted) throw new TransactionAbortedException();
            if (status == TransactionStatus.InDoubt) throw new TransactionInDoubtException();
            Native.Check(code);
            if (status == TransactionStatus.Active)
                throw new TransactionException("An object hasn't replied yet.");
        }

        // Forgets the transaction, where it is over.
        public void Dispose()
        {
            Native.wz_end(TransactionManager.Handle, Number);
        }
    }

    public sealed class TransactionScope : IDisposable
    {
        readonly Transaction before;
        readonly Transaction expected; // the current one within the scope
        readonly CommittableTransaction own; // null where the scope joins one, or has none
        bool complete, disposed;

        public TransactionScope() : this(TransactionScopeOption.Required) { }

        public TransactionScope(TransactionScopeOption option)
        {
            before = Transaction.Current;
            bool joins = option == TransactionScopeOption.Required && before != null;
            if (option != TransactionScopeOption.Suppress && !joins)
                own = new CommittableTransaction();
            expected = joins ? before : own;
            Transaction.Current = expected;
        }

        public void Complete()
        {
            if (disposed) throw new ObjectDisposedException("TransactionScope");
            if (complete) throw new InvalidOperationException("It is complete already.");
            complete = true;
        }

        public void Dispose()
        {
            if (disposed) return;
            if (Transaction.Current != expected)
                throw new InvalidOperationException("This scope isn't the innermost.");
            disposed = true;
            Transaction.Current = before;
            if (own != null) EndOwn();
            else if (expected != null && !complete) RollBackIfActive(expected);
        }

        void EndOwn()
        {
            try
            {
                if (complete) own.Commit();
                else RollBackIfActive(own);
            }
            finally
            {
                own.Dispose();
            }
        }

        static void RollBackIfActive(Transaction transaction)
        {
            if (transaction.Status == TransactionStatus.Active) transaction.Rollback();
        }
    }
}
