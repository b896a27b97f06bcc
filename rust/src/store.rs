//! A store over the host's flash: tickv's `TicKV`.
use crate::failure::{Failure, Service};
use crate::flash::Flash;
use crate::refusal::{Answer, Refusal, Success};
use crate::stepped::{Request, Running};
use crate::underway::{Host, Underway};

/// Why a store over the flash `F` says no: a failed service is told with the flash's own error.
pub type StoreRefusal<F> = Refusal<Failure<<F as Flash>::Error>>;

/// What an operation of a store over the flash `F` answers.
pub type StoreAnswer<F> = Answer<Failure<<F as Flash>::Error>>;

/// A store over a flash, with one region buffer.
///
/// Each operation has three calls. [`get_key`](Store::get_key) and its kin do one service after the other until the operation answers,
/// and ask the flash again while it is not ready. [`get_key_async`](Store::get_key_async) and its kin do the same for an executor.
/// [`start_get_key`](Store::start_get_key) and its kin hand out the operation as something [under way](Underway), to be served one
/// service at a time.
///
/// ```
/// use stilefray::{Flash, NotDone, Refusal, Store};
/// use std::convert::Infallible;
///
/// struct Chip([[u8; 64]; 4]);
///
/// impl Flash for Chip {
///     type Error = Infallible; // memory does not fail
///
///     fn read_region(&mut self, region: usize, buffer: &mut [u8]) -> Result<(), NotDone<Infallible>> {
///         buffer.copy_from_slice(&self.0[region]);
///         Ok(())
///     }
///     fn write(&mut self, place: usize, bytes: &[u8]) -> Result<(), NotDone<Infallible>> {
///         for (old, new) in self.0[place / 64][place % 64..].iter_mut().zip(bytes) {
///             *old &= new;
///         }
///         Ok(())
///     }
///     fn erase_region(&mut self, region: usize) -> Result<(), NotDone<Infallible>> {
///         self.0[region] = [255; 64];
///         Ok(())
///     }
/// }
///
/// let mut region_buffer = [0u8; 64];
/// let mut store = Store::new(Chip([[0; 64]; 4]), &mut region_buffer, 4);
/// store.initialise(0x5374_696c_6566_7261)?; // the main key
/// store.append_key(1, b"gains")?;
///
/// let mut buffer = [0u8; 16];
/// let length = store.get_key(1, &mut buffer)?;
/// assert_eq!(&buffer[..length], b"gains");
/// assert_eq!(store.append_key(1, b"again"), Err(Refusal::KeyAlreadyExists));
/// # Ok::<(), stilefray::StoreRefusal<Chip>>(())
/// ```
#[derive(Debug)]
pub struct Store<'a, F: Flash> {
    flash: F,
    region_buffer: &'a mut [u8],
    regions: usize,
    limit: u32,
    /// What the flash has begun and not ended, where its operation was given up.
    begun: Option<Request>,
}

impl<'a, F: Flash> Store<'a, F> {
    /// `region_buffer` has the length of one region, 64 to 4,096 bytes; the chip has `regions` of them, 1 to 64. With other numbers
    /// every call is refused as BadGeometry. What the buffer holds does not matter. The [limit](Store::set_limit) is `u32::MAX`.
    ///
    /// On a chip that is in use both must be what it was written with: [`initialise`](Store::initialise) with another size or number of
    /// regions may not meet the main key, and then erases the chip.
    #[must_use]
    pub fn new(flash: F, region_buffer: &'a mut [u8], regions: usize) -> Self {
        Store { flash, region_buffer, regions, limit: u32::MAX, begun: None }
    }

    /// The store with another [limit](Store::set_limit).
    #[must_use]
    pub fn with_limit(mut self, limit: u32) -> Self {
        self.limit = limit;
        self
    }

    /// Sets how often in a row one service may say NotReady; with 0 none may. Where it says so once more, the store takes the service
    /// for failed: the operation ends with [`Refusal::FlashFailed`], whose reason is [`NeverReady`](crate::Reason::NeverReady), and what
    /// was done before stays done. It holds for the blocking calls, for [`Underway::serve`] and for the futures alike, and each service
    /// is counted anew.
    ///
    /// As long as nobody sets it, it is `u32::MAX`: so no call runs for ever, as long as each call of the flash returns, but on a flash
    /// that is never ready it runs for four thousand million of them. Choose one by how long a service may take and how often it is
    /// asked. A flash that has a clock may rather look at the time itself, and say `Failed` when it is up.
    ///
    /// The flash may still be busy with the service that was given up: the next operation asks for it again, before anything of its own
    /// ([`begun`](Store::begun)), and if it stays not ready that operation is FlashFailed too.
    ///
    /// ```
    /// use stilefray::{Failure, Flash, NotDone, Reason, Refusal, Service, Store};
    ///
    /// struct Stuck;
    ///
    /// impl Flash for Stuck {
    ///     type Error = ();
    ///     fn read_region(&mut self, _: usize, _: &mut [u8]) -> Result<(), NotDone<()>> {
    ///         Err(NotDone::NotReady)
    ///     }
    ///     fn write(&mut self, _: usize, _: &[u8]) -> Result<(), NotDone<()>> {
    ///         Err(NotDone::NotReady)
    ///     }
    ///     fn erase_region(&mut self, _: usize) -> Result<(), NotDone<()>> {
    ///         Err(NotDone::NotReady)
    ///     }
    /// }
    ///
    /// let mut region_buffer = [0u8; 64];
    /// let mut store = Store::new(Stuck, &mut region_buffer, 4).with_limit(1000);
    /// let failure = Failure { service: Service::Read { region: 1 }, reason: Reason::NeverReady { limit: 1000 }, earlier: false };
    /// assert_eq!(store.append_key(1, b"gains"), Err(Refusal::FlashFailed(failure)));
    /// ```
    pub fn set_limit(&mut self, limit: u32) {
        self.limit = limit;
    }

    /// How often in a row one service may say NotReady.
    #[must_use]
    pub fn limit(&self) -> u32 {
        self.limit
    }

    /// The value of a key, copied to the front of `buffer`: its length. Refused as [`image::get_key`](crate::image::get_key) is, or
    /// FlashFailed.
    pub fn get_key(&mut self, key: u64, buffer: &mut [u8]) -> Result<usize, StoreRefusal<F>> {
        self.start_get_key(key, buffer)?.finish().map(Success::value)
    }

    /// Stores a value under a key that has no live record. Refused as [`image::append_key`](crate::image::append_key) is, or
    /// FlashFailed.
    pub fn append_key(&mut self, key: u64, value: &[u8]) -> Result<(), StoreRefusal<F>> {
        self.start_append_key(key, value)?.finish().map(drop)
    }

    /// Makes the key's record dead. Refused as [`image::invalidate_key`](crate::image::invalidate_key) is, or FlashFailed.
    pub fn invalidate_key(&mut self, key: u64) -> Result<(), StoreRefusal<F>> {
        self.start_invalidate_key(key)?.finish().map(drop)
    }

    /// Makes the key's record dead, and its value and checksum zeros. Refused as [`image::zeroise_key`](crate::image::zeroise_key)
    /// is, or FlashFailed.
    pub fn zeroise_key(&mut self, key: u64) -> Result<(), StoreRefusal<F>> {
        self.start_zeroise_key(key)?.finish().map(drop)
    }

    /// Erases each region that has records, all of them dead: the bytes freed. Refused as
    /// [`image::garbage_collect`](crate::image::garbage_collect) is, or FlashFailed; regions erased before that stay erased.
    pub fn garbage_collect(&mut self) -> Result<usize, StoreRefusal<F>> {
        self.start_garbage_collect()?.finish().map(Success::value)
    }

    /// Sees to it that the chip is one of this store's, by its main key: `Complete(0)`, it was and nothing changed; `Written`, it was
    /// erased and begun anew. Call it with the same key at every power-up: with another one, **every record on the chip is erased**.
    /// Refused: BadGeometry, BadKey, FlashFailed; and what an append is refused by, where the flash had not erased what it said it had.
    pub fn initialise(&mut self, key: u64) -> StoreAnswer<F> {
        self.start_initialise(key)?.finish()
    }

    /// Starts a [get](Store::get_key). Its answer is `Complete` with the value's length. Refused at once: BadGeometry, BadKey; nothing is
    /// under way then.
    pub fn start_get_key<'o>(&'o mut self, key: u64, buffer: &'o mut [u8]) -> Result<Underway<'o, F>, StoreRefusal<F>> {
        let running = Running::get_key(self.region_size(), self.regions, key, buffer.len());
        self.begin(running, &[], buffer)
    }

    /// Starts an [append](Store::append_key). Its answer is `Written`. Refused at once: BadGeometry, BadKey, ObjectTooLarge; nothing is
    /// under way then.
    pub fn start_append_key<'o>(&'o mut self, key: u64, value: &'o [u8]) -> Result<Underway<'o, F>, StoreRefusal<F>> {
        let running = Running::append_key(self.region_size(), self.regions, key, value.len());
        self.begin(running, value, &mut [])
    }

    /// Starts an [invalidate](Store::invalidate_key). Its answer is `Written`. Refused at once: BadGeometry, BadKey; nothing is under way
    /// then.
    pub fn start_invalidate_key(&mut self, key: u64) -> Result<Underway<'_, F>, StoreRefusal<F>> {
        let running = Running::invalidate_key(self.region_size(), self.regions, key);
        self.begin(running, &[], &mut [])
    }

    /// Starts a [zeroise](Store::zeroise_key). Its answer is `Written`. Refused at once: BadGeometry, BadKey; nothing is under way then.
    pub fn start_zeroise_key(&mut self, key: u64) -> Result<Underway<'_, F>, StoreRefusal<F>> {
        let running = Running::zeroise_key(self.region_size(), self.regions, key);
        self.begin(running, &[], &mut [])
    }

    /// Starts a [collect](Store::garbage_collect). Its answer is `Freed` with the bytes. Refused at once: BadGeometry; nothing is under
    /// way then.
    pub fn start_garbage_collect(&mut self) -> Result<Underway<'_, F>, StoreRefusal<F>> {
        let running = Running::garbage_collect(self.region_size(), self.regions);
        self.begin(running, &[], &mut [])
    }

    /// Starts an [initialise](Store::initialise) with the main key. Its answer is `Complete(0)` or `Written`. Refused at once:
    /// BadGeometry, BadKey; nothing is under way then.
    pub fn start_initialise(&mut self, key: u64) -> Result<Underway<'_, F>, StoreRefusal<F>> {
        let running = Running::initialise(self.region_size(), self.regions, key);
        self.begin(running, &[], &mut [])
    }

    /// The bytes of a region: the region buffer's length.
    #[must_use]
    pub fn region_size(&self) -> usize {
        self.region_buffer.len()
    }

    /// How many regions the chip has.
    #[must_use]
    pub fn regions(&self) -> usize {
        self.regions
    }

    /// The service that the flash has begun and not ended: the last that said NotReady, where its operation was given up by the limit or
    /// by [dropping](Underway) it. The next operation asks for it again, with the same bytes, before anything of its own, until it is
    /// done; what was given up has then done that service too (R11.9 of docs/RULES.md). If it fails, that operation ends as FlashFailed
    /// with [`earlier`](Failure::earlier), and the one after it begins with a service of its own.
    ///
    /// It is known to this store alone: keep one store for as long as the flash is used, or see that this is `None` before the store is
    /// dropped.
    #[must_use]
    pub fn begun(&self) -> Option<Service> {
        self.begun.and_then(Service::of)
    }

    /// Forgets the service that the flash had [begun](Store::begun), for a flash that was reset, or whose chip was erased or exchanged: it
    /// is not asked for again. What a write or an erase leaves that was broken off is not promised (R13.8).
    pub fn forget_begun(&mut self) {
        self.begun = None;
    }

    /// The flash.
    #[must_use]
    pub fn flash(&self) -> &F {
        &self.flash
    }

    /// The flash, to alter. What is changed behind the store's back is taken as it is found. Where the flash is reset, its chip erased or
    /// exchanged, call [`forget_begun`](Store::forget_begun) too: otherwise the next operation first asks for the service that was begun.
    #[must_use]
    pub fn flash_mut(&mut self) -> &mut F {
        &mut self.flash
    }

    /// The flash, given back. A service that it has [begun](Store::begun) and not ended is no longer known then.
    #[must_use]
    pub fn into_flash(self) -> F {
        self.flash
    }

    #[inline]
    fn begin<'o>(
        &'o mut self,
        start: Result<Running, Refusal>,
        value: &'o [u8],
        buffer: &'o mut [u8],
    ) -> Result<Underway<'o, F>, StoreRefusal<F>> {
        let running = start.map_err(Refusal::without_failure)?;
        let (region_buffer, begun) = (&mut *self.region_buffer, &mut self.begun);
        Ok(Underway::begin(running, Host { flash: &mut self.flash, region_buffer, begun, limit: self.limit }, value, buffer))
    }
}
