<?php
break;