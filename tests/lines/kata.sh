#!/bin/sh
# as kata-runtime starts it, out of the journal
exec /opt/kata/bin/qemu-system-aarch64 -name sandbox-7c1f0e,debug-threads=on -uuid 5b5d4a0e-9f6c-4a3f-8d33-6f3e3b1f0a11 \
    -machine virt,accel=kvm,usb=off,gic-version=host,confidential-guest-support=rme0 -cpu host,pmu=off \
    -qmp unix:fd=3,server=on,wait=off -m 2048M,slots=10,maxmem=257000M \
    -device pci-bridge,bus=pcie.0,id=pci-bridge-0,chassis_nr=1,shpc=off,addr=2,io-reserve=4k,mem-reserve=1m,pref64-reserve=1m \
    -device virtio-serial-pci,disable-modern=false,id=serial0 -device virtconsole,chardev=charconsole0,id=console0 \
    -chardev socket,id=charconsole0,path=/run/vc/vm/7c1f0e/console.sock,server=on,wait=off \
    -device virtio-scsi-pci,id=scsi0,disable-modern=false -object rng-random,id=rng0,filename=/dev/urandom \
    -device virtio-rng-pci,rng=rng0 -device vhost-vsock-pci,disable-modern=false,vhostfd=4,id=vsock-1178,guest-cid=1178 \
    -chardev socket,id=char-b5f1,path=/run/vc/vm/7c1f0e/vhost-fs.sock \
    -device vhost-user-fs-pci,chardev=char-b5f1,tag=kataShared,queue-size=1024 \
    -netdev tap,id=network-0,vhost=on,vhostfds=5,fds=6 \
    -device driver=virtio-net-pci,netdev=network-0,mac=02:42:ac:11:00:02,disable-modern=false,mq=on,vectors=4 \
    -rtc base=utc,driftfix=slew,clock=host -object rme-guest,id=rme0,measurement-algorithm=sha512 \
    -object memory-backend-ram,id=dimm1,size=2048M -numa node,memdev=dimm1 -vga none -no-user-config -nodefaults -nographic --no-reboot \
    -object iommufd,id=iommufd0 -daemonize -kernel Image -initrd initrd \
    -append "iommu.passthrough=0 panic=1 nr_cpus=8 agent.log=debug" -pidfile /run/vc/vm/7c1f0e/pid -smp 1,cores=1,threads=1,sockets=8,maxcpus=8 \
    >/run/vc/vm/7c1f0e/log 2>&1
